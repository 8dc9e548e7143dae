/* Comma operators, conditions, and functions that are called before they are defined. */
int putchar(int c);
static int even(unsigned n), odd(unsigned n);

static int odd(unsigned n)
{
    return n ? even(n - 1) : 0;
}

static int even(unsigned n)
{
    return n == 0 ? 1 : odd(n - 1);
}

int main(void)
{
    int a = 0, b;

    b = (a++, a += even(10), a) ? odd(7) : 0;
    if (a)
        if (b > 5)
            a = 50;
        else
            do
                a += 3;
            while (a < 20);
    else
        a = 1;
    while (a % 5)
        a++;
    putchar(even(3) ? 'e' : 'o'), putchar('\n');
    return a + b * 100 - -1 - (-2) + !~0;
}
