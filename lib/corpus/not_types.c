/* Types that are not turned. */
#include <stdlib.h>

union word { int i; char c[4]; }; /* not turned: union word */
struct bits { unsigned low : 3; int high; }; /* not turned: bit-field low */
struct pair { int a, b; };

static int by_value(struct pair p) /* not turned: struct as a parameter */
{
    return p.a;
}

static int compare(const int *a, const int *b)
{
    return *a - *b;
}

static int least(int *a, int n, int (*by)(const int *, const int *)) /* not turned: pointer to a function */
{
    return n > 1 && by(a, a + 1) > 0 ? a[1] : a[0]; /* not turned: call through a pointer */
}

int main(void)
{
    union word w; /* not turned: union word */
    struct bits b = { 1, 2 };
    struct pair p = { 1, 2 };
    int a[2] = { 2, 1 }, n = 3;
    int lengths[n]; /* not turned: array whose length is no constant */
    long address = (long)&p; /* not turned: cast between a pointer and an integer */
    float f = 1; /* not turned: floating point */

    w.i = 1;
    lengths[0] = 'ab'; /* not turned: character constant of several characters */
    return by_value(p) + b.high + least(a, 2, compare); /* not turned: pointer to a function */
}
