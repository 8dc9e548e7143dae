/* Declarations in for, of several kinds and with lists. */
int putchar(int c);

int main(void)
{
    int total = 0;
    const char *text = "loops";

    for (int k = 0, n = 5; k < n; k++)
        total += k;
    for (const char *s = text, *t = s + 5; s < t; s++)
        for (int k = 0; k < 2; k++)
            total += *s * k;
    for (int a[3] = { 1, 2 }, k = 0; k < 3; k++)
        total += a[k];
    for (struct { int i; char c; } x = { 0, 'a' }; x.i < 3; x.i++, x.c++)
        putchar(x.c);
    for (;;)
        if (total++ % 7 == 0)
            break;
    putchar('\n');
    return total % 256;
}
