/* Reads sums and products in brackets from texts, and computes them. */

int putchar(int c);

static const char first[] = "(1 + 2) * (3 + 4 * (5 + 6)) - 7 * (8 - 9 * (10 + 11)) + 12 * 13 - 14";
static const char second[] = "((((1))) + ((2) * (3))) * 4 - (5 - (6 - (7 - (8 - (9 - 10))))) * 11 + 1234 * 56";
const char *at;

void put_number(unsigned long n)
{
    if (n > 9)
        put_number(n / 10);
    putchar('0' + (int)(n % 10));
}

void skip(void)
{
    while (*at == ' ')
        at++;
}

long sum(void);

long factor(void)
{
    long value = 0;

    skip();
    if (*at == '(') {
        at++;
        value = sum();
        skip();
        at++;
        return value;
    }
    while (*at >= '0' && *at <= '9')
        value = value * 10 + (*at++ - '0');
    return value;
}

long product(void)
{
    long value = factor();

    skip();
    while (*at == '*') {
        at++;
        value = value * factor();
        skip();
    }
    return value;
}

long sum(void)
{
    long value = product();

    skip();
    while (*at == '+' || *at == '-') {
        int minus = *at == '-';

        at++;
        if (minus)
            value = value - product();
        else
            value = value + product();
        skip();
    }
    return value;
}

int main(void)
{
    long total = 0;
    int round;

    for (round = 0; round < 40; round++) {
        at = first;
        total = total + sum();
        at = second;
        total = total + sum() * 3;
    }
    put_number((unsigned long)total);
    putchar('\n');
    return 0;
}
