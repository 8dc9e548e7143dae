/* Puts the CRC-32 of its input, as eight hexadecimal digits. */

int getchar(void);
int putchar(int c);

unsigned table[256];

void make_table(void)
{
    unsigned n;
    int bit;

    for (n = 0; n < 256; n++) {
        unsigned c = n;

        for (bit = 0; bit < 8; bit++)
            c = c & 1 ? 0xedb88320u ^ (c >> 1) : c >> 1;
        table[n] = c;
    }
}

void put_digit(unsigned digit)
{
    putchar("0123456789abcdef"[digit]);
}

int main(void)
{
    unsigned crc = 0xffffffffu;
    int shift;
    int c;

    make_table();
    while ((c = getchar()) != -1)
        crc = table[(crc ^ (unsigned)c) & 0xff] ^ (crc >> 8);
    crc = ~crc;
    for (shift = 28; shift >= 0; shift -= 4)
        put_digit(crc >> shift & 0xf);
    putchar('\n');
    return 0;
}
