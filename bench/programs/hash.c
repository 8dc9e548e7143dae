/* Hashes made bytes by FNV-1a, Adler-32 and a table of buckets. */

int putchar(int c);

unsigned char data[1024];
int heads[64];
int next[1024];

void put_number(unsigned long n)
{
    if (n > 9)
        put_number(n / 10);
    putchar('0' + (int)(n % 10));
}

unsigned fnv(const unsigned char *at, int length)
{
    unsigned hash = 2166136261u;
    int i;

    for (i = 0; i < length; i++)
        hash = (hash ^ at[i]) * 16777619u;
    return hash;
}

unsigned adler(const unsigned char *at, int length)
{
    unsigned low = 1;
    unsigned high = 0;
    int i;

    for (i = 0; i < length; i++) {
        low = (low + at[i]) % 65521u;
        high = (high + low) % 65521u;
    }
    return high << 16 | low;
}

int longest_bucket(void)
{
    int longest = 0;
    int bucket;
    int i;

    for (i = 0; i < 64; i++)
        heads[i] = -1;
    for (i = 0; i < 1024; i++) {
        bucket = (int)(data[i] * 2654435761u >> 26);
        next[i] = heads[bucket];
        heads[bucket] = i;
    }
    for (bucket = 0; bucket < 64; bucket++) {
        int count = 0;

        for (i = heads[bucket]; i >= 0; i = next[i])
            count++;
        if (count > longest)
            longest = count;
    }
    return longest;
}

int main(void)
{
    unsigned state = 1;
    int i;

    for (i = 0; i < 1024; i++) {
        state = state * 1103515245u + 12345u;
        data[i] = (unsigned char)(state >> 16);
    }
    put_number(fnv(data, 1024));
    putchar(' ');
    put_number(adler(data, 1024));
    putchar(' ');
    put_number((unsigned long)longest_bucket());
    putchar('\n');
    return 0;
}
