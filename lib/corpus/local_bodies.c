/* Structs, enums and typedefs within functions, which hide those of file scope. */
int putchar(int c);

struct shape { int a; };
enum { SIDE = 2 };
typedef int number;

static int one(void)
{
    struct shape { int b, c; } s = { 3, 4 };
    enum { SIDE = 5, TOP } side = TOP;
    typedef long number;
    number n = sizeof(number);

    return s.b * s.c + SIDE + side + (int)n + sizeof(struct shape);
}

static int two(void)
{
    struct { int x; struct { char y; } in; } nameless[2], *p = nameless;
    struct shape s = { 1 };
    number number = 7;

    p->x = SIDE;
    p[1].in.y = 'y';
    return p->x + p[1].in.y + s.a + number + sizeof(p->in);
}

int main(void)
{
    putchar('0' + one() % 10);
    putchar('0' + two() % 10);
    putchar('\n');
    return one() + two();
}
