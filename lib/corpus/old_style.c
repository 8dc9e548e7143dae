/* Definitions in the old style, and functions that are declared with empty brackets or late. */
int putchar();
long scaled();

add(a, b)
{
    return a + b;
}

char *behind(s, n, c)
    char *s;
    int n;
    char c;
{
    while (n-- > 0 && *s != c)
        s++;
    return s;
}

int main()
{
    putchar(*behind("hello", 5, 'l'));
    putchar(*behind("hello", 1, 'z'));
    putchar('\n');
    return add(1, 2) + (int)scaled(4, 10L);
}

long scaled(factor, n)
    short factor;
    long n;
{
    return factor * n;
}
