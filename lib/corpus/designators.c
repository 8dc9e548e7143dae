/* Designators at file scope and in functions: out of order, twice, nested, and with items behind them. */
int putchar(int c);

enum { FIRST, SECOND, THIRD };
struct row { int a[4]; struct { int low, high; } range; const char *name; };

static int numbers[] = { [THIRD] = 30, 40, [FIRST] = 10, [7] = 70 };
static struct row rows[] = {
    [1] = { .name = "b", .range.high = 5, .a = { [2] = 9, 8 } },
    [0].name = "a", [0].a[1] = 3, 4, 5, [2] = { { 1, 2, 3, 4 }, { 6, 7 }, "c" },
};

static int show(const struct row *r)
{
    return r->a[0] + 2 * r->a[1] + 3 * r->a[2] + 5 * r->a[3] + 7 * r->range.low + 11 * r->range.high
        + (r->name ? r->name[0] : 0);
}

int main(void)
{
    struct row local = { .a[FIRST] = 1, 2, .range = { .high = 3 }, .a[3] = 6 };
    int total = show(rows) + show(rows + 1) + show(rows + 2) + show(&local), k;

    for (k = 0; k < (int)(sizeof numbers / sizeof numbers[0]); k++)
        total += numbers[k] * k;
    putchar('0' + total % 10);
    putchar('\n');
    return total % 256;
}
