/* Macros, conditions and lines that are joined. */
#include <limits.h>
#include <stddef.h>
#define SQUARE(n) ((n) * (n))
#define JOIN(a, b) a##b
#define TEXT(a) #a
#define REPEAT(n, body) do { int k_; for (k_ = 0; k_ < (n); k_++) { body; } } while (0)
#if CHAR_BIT == 8 && defined INT_MAX
int JOIN(out, put)(const char *s) \
{
    int putchar(int);
    while (*s)
        putchar(*s++);
    return 0;
}
#else
#error "other machines"
#endif
#pragma once

struct layout { char c; long n; int a[3]; };

int main(void)
{
    int count = 0;

    REPEAT(SQUARE(2), count += 3);
    output(TEXT(square) "\n");
    _Static_assert(sizeof(int) == 4, "int");
    return count + (int)offsetof(struct layout, n) + (int)offsetof(struct layout, a[1]); // 12 + 8 + 20
}
