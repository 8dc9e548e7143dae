/* _Bool: what is converted to it is 0 or 1. */
#include <stdbool.h>

int putchar(int c);

struct flags { bool a, b; };

static bool is_large(long n)
{
    return n & 0x700;
}

static int count(bool a, _Bool b)
{
    return a + b;
}

int main(void)
{
    bool set = 256, none = 0, pointed = "text";
    struct flags f = { 512, .b = 0 };
    int total = set + pointed * 2 + f.a * 4 + is_large(0x400) * 8 + count(77, none) * 16 + (bool)1024 * 32;

    set = total;
    f.b |= 64;
    f.a &= none;
    set = f.b == true && !f.a;
    total += set * 64 + f.b * 128 - f.a;
    putchar(is_large(1) ? 'l' : 's');
    putchar('\n');
    return total;
}
