/* Constants in unsigned types, which decide lengths and branches, and sizes of literals. */
#include <stdbool.h>
#include <limits.h>

int putchar(int c);

enum { ONES = ~0U >> 28, HALF = UINT_MAX / 2 > INT_MAX - 1, BELOW = -1 < 1U, SIZES = sizeof(int) - 5 > 0, SHIFT = -8 >> 1 };
static char room[(unsigned char)-250], shorter[~0U - 0xfffffff0];
static bool truths[] = { 2, 0, -1, 256 };

int main(void)
{
    int total = ONES + HALF * 20 + BELOW * 40 + SIZES * 80 + SHIFT + (int)(sizeof room + sizeof shorter);

    if (~0U > 5)
        total += 3;
    if (-1 < sizeof(int))
        total += 1000;
    else
        total += 7;
    if ((unsigned)-1 + 1)
        total += 500;
    total += truths[0] + truths[2] * 2 + truths[3] * 4 + (int)sizeof((short[]){ 1, 2, 3 });
    putchar('0' + total % 10);
    putchar('\n');
    return total % 256;
}
