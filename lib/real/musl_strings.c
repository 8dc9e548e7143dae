/* musl: the functions of src/string that are named below. */
#include <ctype.h>
#include <string.h>
#include <stdint.h>
#include <limits.h>
#include <sys/types.h>
#include <numbers.h>
#define strcspn musl_strcspn
#define strspn musl_strspn
#define strsep musl_strsep
#define strchrnul musl_strchrnul
#define __strchrnul musl_strchrnul
#define strverscmp musl_strverscmp
#define swab musl_swab
#define memccpy musl_memccpy
#define weak_alias(name, alias)
#define hidden
char *strchrnul(const char *, int);
#include "strchrnul.c"
#include "strcspn.c"
#include "strspn.c"
#include "strsep.c"
#include "strverscmp.c"
#include "swab.c"

int main(void)
{
    char list[] = "one,two;;three", *rest = list, *word;
    char swapped[6];

    while ((word = strsep(&rest, ",;"))) {
        put_text(word);
        putchar('|');
    }
    putchar('\n');
    put_unsigned(strspn("aabbcc", "ab") * 10 + strcspn("aabbcc", "cd"));
    put_unsigned(strspn("aab", "a") * 10 + strcspn("aab", "b"));
    putchar('\n');
    put_long((strverscmp("file9", "file10") < 0) + 2 * (strverscmp("a01", "a1") < 0) + 4 * (strverscmp("x", "x") == 0));
    swab("badcfe", swapped, 6);
    put_text(strchrnul("abc", 'b'));
    putchar(swapped[0]);
    putchar(swapped[5]);
    putchar('\n');
    return 0;
}
