/* musl: memmem.c. */
#include <numbers.h>
#include "memmem.c"

static void find(const char *text, const char *part)
{
    char *place = memmem(text, strlen(text), part, strlen(part));

    put_long(place ? place - text : -1);
    putchar('\n');
}

int main(void)
{
    const char *text = "the quick brown fox jumps over the lazy dog and the quick cat";

    find(text, "");
    find(text, "q");
    find(text, "ox");
    find(text, "the ");
    find(text, "lazy");
    find(text, "the lazy dog");
    find(text, "the quick cat");
    find(text, "the quick bat");
    find("aaaaaaaaaaaaaab", "aaaaaab");
    find("short", "longer than that");
    return 0;
}
