/* Compound literals: as values, under &, of arrays, in loops and at file scope. */
int putchar(int c);

struct point { int x, y; };

static struct point *origin = &(struct point){ 3, 4 };
static int *primes = (int[]){ 2, 3, 5, 7 };

static int sum(const int *a, int n)
{
    return n ? *a + sum(a + 1, n - 1) : 0;
}

static int area(const struct point *p)
{
    return p->x * p->y;
}

int main(void)
{
    struct point p = (struct point){ .y = 2, .x = 9 }, *q = &(struct point){ 1, 1 };
    int total = area(origin) + primes[3] + area(&p), k;

    for (k = 0; k < 3; k++) {
        total += sum((int[]){ k, k + 1, k * k }, 3) + area(&(struct point){ k, 5 }) + (&(struct point){ k, 2 })->y;
        p = (struct point){ p.y, p.x };
    }
    *q = (struct point){ total % 7, 3 };
    total += (int){ 5 } + area(q) + p.x + *(char[]){ "z" };
    putchar('0' + total % 10);
    putchar('\n');
    return total % 256;
}
