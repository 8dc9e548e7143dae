/* Reads its input by bytes and by lines. */
#include <stdio.h>
#include <string.h>
#include <numbers.h>

int main(void)
{
    char line[8];
    int length;

    putchar(fgetc(stdin));
    while (fgets(line, 8, stdin) != NULL && strcmp(line, "end\n") != 0) {
        put_long(strlen(line));
        putchar(' ');
        fputs(line, stdout);
    }
    fflush(stdout);
    while ((length = get_line(line, 8)) >= 0) {
        put_wide(length, 3);
        put_text(line);
        putchar('\n');
    }
    putchar(fgetc(stdin) == EOF ? '.' : '?');
    putchar(feof(stdin) ? '.' : '?');
    return 0;
}
