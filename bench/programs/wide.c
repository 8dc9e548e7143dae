/* Numbers of 64 bits: a generator, powers modulo a prime, and square roots. */

int putchar(int c);

void put_number(unsigned long n)
{
    if (n > 9)
        put_number(n / 10);
    putchar('0' + (int)(n % 10));
}

unsigned long power(unsigned long base, unsigned long exponent, unsigned long modulus)
{
    unsigned long result = 1;

    base %= modulus;
    while (exponent) {
        if (exponent & 1)
            result = result * base % modulus;
        base = base * base % modulus;
        exponent >>= 1;
    }
    return result;
}

unsigned long root(unsigned long n)
{
    unsigned long low = 0;
    unsigned long high = 4294967295ul;

    while (low < high) {
        unsigned long middle = low + (high - low + 1) / 2;

        if (middle * middle <= n)
            low = middle;
        else
            high = middle - 1;
    }
    return low;
}

int main(void)
{
    unsigned long state = 88172645463325252ul;
    unsigned long sum = 0;
    int i;

    for (i = 0; i < 60; i++) {
        state ^= state << 13;
        state ^= state >> 7;
        state ^= state << 17;
        sum += power(state, 1000003 + (unsigned long)i, 2147483647ul);
        sum ^= root(state);
    }
    put_number(sum);
    putchar('\n');
    return 0;
}
