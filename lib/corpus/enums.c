/* Enumerations: with values, of several declarators, of constants that stand on others. */
int putchar(int c);

enum { BIT0 = 1 << 0, BIT3 = 1 << 3, ALL = BIT0 | BIT3, LAST };
enum color { RED = -2, GREEN, BLUE } favourite = BLUE, *chosen = &favourite;
static char names[ALL][2] = { [BIT0] = "b", [BIT3] = "d" };

static enum color next(enum color c)
{
    return c == BLUE ? RED : c + 1;
}

int main(void)
{
    enum color c = next(*chosen);

    putchar(names[BIT3][0]);
    putchar(names[1][0]);
    putchar('\n');
    return LAST + next(c) + 5 + (int)(sizeof names);
}
