/* Puts the primes below 1,000, ten in a line, by the sieve of Eratosthenes. */

int putchar(int c);

enum { LIMIT = 1000, IN_A_LINE = 10 };

char is_composite[LIMIT];

void put_number(int n)
{
    if (n > 9)
        put_number(n / 10);
    putchar('0' + n % 10);
}

void cross_out(int prime)
{
    int n;

    for (n = prime * prime; n < LIMIT; n += prime)
        is_composite[n] = 1;
}

int main(void)
{
    int count = 0;
    int n;

    for (n = 2; n < LIMIT; n++) {
        if (is_composite[n])
            continue;
        if (n * n < LIMIT)
            cross_out(n);
        put_number(n);
        count++;
        putchar(count % IN_A_LINE == 0 ? '\n' : ' ');
    }
    putchar('\n');
    return count % 256;
}
