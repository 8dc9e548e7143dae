void put_text(const char *s)
{
    for (; *s; s++)
        putchar(*s);
}

void put_unsigned(unsigned long n)
{
    if (n > 9)
        put_unsigned(n / 10);
    putchar('0' + (int)(n % 10));
}

void put_long(long n)
{
    if (n < 0) {
        putchar('-');
        put_unsigned(-(unsigned long)n);
    } else {
        put_unsigned(n);
    }
}

void put_hex(unsigned long n)
{
    if (n > 15)
        put_hex(n / 16);
    putchar("0123456789abcdef"[n % 16]);
}

/* A number with blanks in front of it, so that it takes as many characters at least. */
void put_wide(long n, int width)
{
    unsigned long size = n < 0 ? -(unsigned long)n : n;
    int length = n < 0 ? 2 : 1;

    for (; size > 9; size /= 10)
        length++;
    for (; length < width; length++)
        putchar(' ');
    put_long(n);
}

/* Reads a line without its end, as far as there is room, and gives its length, or -1 at the end of the input. */
int get_line(char *s, int size)
{
    int length = 0;
    int c = getchar();

    if (c == -1)
        return -1;
    while (c != -1 && c != '\n') {
        if (length < size - 1)
            s[length++] = c;
        c = getchar();
    }
    s[length] = 0;
    return length;
}

/* Reads a number in decimal and the character behind it; 0 where none is left. */
int get_long(long *n)
{
    unsigned long size = 0;
    int is_negative = 0;
    int c = getchar();

    while (c == ' ' || c == '\n' || c == '\t')
        c = getchar();
    if (c == '-') {
        is_negative = 1;
        c = getchar();
    }
    if (c < '0' || c > '9')
        return 0;
    for (; c >= '0' && c <= '9'; c = getchar())
        size = size * 10 + (c - '0');
    *n = is_negative ? -size : size;
    return 1;
}
