/* long long and its literals. */
int putchar(int c);

static unsigned long long mix(unsigned long long h, long long int n)
{
    return (h ^ (unsigned long long)n) * 0x100000001b3ULL + 17LL - 0xffll;
}

int main(void)
{
    long long wide = -9223372036854775807LL - 1;
    unsigned long long h = 14695981039346656037ULL;
    int k;

    for (k = 0; k < 20; k++)
        h = mix(h, k + (wide >> 60));
    putchar('a' + h % 26);
    putchar('a' + (h >> 40) % 26);
    putchar('0' + sizeof(long long) + sizeof 1ll - 8);
    putchar('\n');
    return h >> 56;
}
