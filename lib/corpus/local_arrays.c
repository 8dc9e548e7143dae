/* Initialisers of local arrays: short, long, of texts, with zeros behind them, and in a loop. */
int putchar(int c);

static int sum(const int *a, int n)
{
    int s = 0;

    while (n-- > 0)
        s = s * 3 % 1000 + *a++;
    return s;
}

int main(void)
{
    int total = 0, k;

    for (k = 0; k < 2; k++) {
        int few[] = { 1, k, 3 }, some[40] = { k, 2 }, many[12] = { 9, 8, 7, 6, 5, 4, 3, 2, 1, 0 };
        char word[] = "word", long_word[] = "a longer text", room[20] = "room", full[4] = "full";
        unsigned char odd[] = "\377\0z";
        const int table[] = { 4, 4, 4, 1 };

        total += sum(few, 3) + sum(some, 40) + sum(many, 12) + sum(table, sizeof table / sizeof *table);
        total += word[4] + long_word[12] + room[19] + full[3] + odd[0] + odd[2] + (int)sizeof odd;
        few[0] = some[5] = many[2] = word[0] = 77;
    }
    for (k = 1; k < total; k *= 10)
        putchar('0' + total / k % 10);
    putchar('\n');
    return total % 256;
}
