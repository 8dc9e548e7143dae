/* Initialisers of local structs, with structs and arrays in them, left-out braces, and a struct as an item. */
int putchar(int c);

struct point { int x, y; };
struct line { struct point from, to; char name[4]; };

static int weigh(const struct line *l)
{
    return l->from.x + 2 * l->from.y + 3 * l->to.x + 4 * l->to.y + l->name[0] + l->name[3];
}

int main(void)
{
    struct point p = { 5, 6 };
    struct line whole = { { 1, 2 }, { 3, 4 }, "abc" }, flat = { 1, 2, 3, 4, 'a', 'b' }, mixed = { p, { 7 }, { 'x' } };
    struct line copy = whole, none = { 0 }, lines[2] = { [1] = { .to = { .y = 9 } } };
    int total = weigh(&whole) + weigh(&flat) + weigh(&mixed) + weigh(&copy) + weigh(&none) + weigh(lines + 1);

    putchar('0' + total % 10);
    putchar('\n');
    return total % 256;
}
