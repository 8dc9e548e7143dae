/* Counts the lines, words and bytes of its input, as `wc` does. */

int getchar(void);
int putchar(int c);

void put_number(long n)
{
    if (n > 9)
        put_number(n / 10);
    putchar('0' + n % 10);
}

int is_blank(int c)
{
    return c == ' ' || (c >= '\t' && c <= '\r');
}

int main(void)
{
    long lines = 0;
    long words = 0;
    long bytes = 0;
    int within = 0;
    int c;

    while ((c = getchar()) != -1) {
        bytes++;
        lines += c == '\n';
        if (is_blank(c)) {
            within = 0;
        } else if (!within) {
            within = 1;
            words++;
        }
    }
    put_number(lines);
    putchar(' ');
    put_number(words);
    putchar(' ');
    put_number(bytes);
    putchar('\n');
    return 0;
}
