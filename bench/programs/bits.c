/* Counts bits, turns words round, and goes through Gray codes. */

int putchar(int c);

void put_number(unsigned long n)
{
    if (n > 9)
        put_number(n / 10);
    putchar('0' + (int)(n % 10));
}

int count(unsigned long word)
{
    int n = 0;

    while (word) {
        word &= word - 1;
        n++;
    }
    return n;
}

unsigned turned(unsigned word)
{
    word = (word >> 1 & 0x55555555u) | (word & 0x55555555u) << 1;
    word = (word >> 2 & 0x33333333u) | (word & 0x33333333u) << 2;
    word = (word >> 4 & 0x0f0f0f0fu) | (word & 0x0f0f0f0fu) << 4;
    word = (word >> 8 & 0x00ff00ffu) | (word & 0x00ff00ffu) << 8;
    return word >> 16 | word << 16;
}

int main(void)
{
    unsigned long sum = 0;
    unsigned gray = 0;
    unsigned n;

    for (n = 1; n < 800; n++) {
        unsigned now = n ^ n >> 1;

        if (count(now ^ gray) != 1)
            return 1;
        gray = now;
        sum = sum * 5 + turned(now) + (unsigned long)count(sum);
    }
    put_number(sum);
    putchar('\n');
    return 0;
}
