/* Divisions: by constants for digits, by what varies for divisors and for primes. */

int putchar(int c);

void put_number(unsigned long n)
{
    if (n > 9)
        put_number(n / 10);
    putchar('0' + (int)(n % 10));
}

int digits(int n)
{
    int sum = 0;

    while (n) {
        sum += n % 10;
        n /= 10;
    }
    return sum;
}

long greatest_divisor(long a, long b)
{
    while (b) {
        long rest = a % b;

        a = b;
        b = rest;
    }
    return a;
}

int is_prime(int n)
{
    int k;

    if (n < 2)
        return 0;
    for (k = 2; k * k <= n; k++)
        if (n % k == 0)
            return 0;
    return 1;
}

int main(void)
{
    unsigned long sum = 0;
    int seconds;
    int n;

    for (n = 1; n < 300; n++) {
        sum += (unsigned long)digits(n * n * 7);
        sum += (unsigned long)greatest_divisor(n * 12L, 5040L + n);
        sum += (unsigned long)is_prime(n);
    }
    for (seconds = 0; seconds < 90000; seconds += 997)
        sum = sum * 3 + (unsigned long)(seconds / 3600 + seconds / 60 % 60 + seconds % 60);
    put_number(sum);
    putchar('\n');
    return 0;
}
