/* const at many places, and pointers to arrays. */
int putchar(int c);

static const int const_first = 1;
static int const const_last = 2;
static const char *const *texts_of(void)
{
    static const char *const texts[] = { "x", "yz", 0 };
    return texts;
}

static int corner(const int (*const grid)[3], const int n[const 2])
{
    return grid[1][2] + n[1];
}

static int sum(int n, const int a[n])
{
    return n ? a[n - 1] + sum(n - 1, a) : 0;
}

int main(void)
{
    int grid[2][3] = { { 1, 2, 3 }, { 4, 5, 6 } }, (*row)[3] = &grid[1], (value) = 4;
    const char *const *t;

    for (t = texts_of(); *t; t++)
        putchar(**t);
    putchar('\n');
    return corner((const int (*)[3])grid, *row) + sum(3, *row) + const_first + const_last + value;
}
