/* Locals, parameters and members with the names of types. */
int putchar(int c);

typedef int size;
typedef struct point { int x; } point;

static int half(int size)
{
    return size / 2;
}

int main(void)
{
    point point = { 9 };
    size n = 4;
    struct { int size, point; } s = { 1, 2 };

    {
        long size = 40;
        n += size;
    }
    putchar('0' + point.x);
    putchar('\n');
    return half(n) + s.size + s.point;
}
