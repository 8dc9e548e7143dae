/* Tables of constants in functions: const ones become static, others are copied. */
int putchar(int c);

struct step { signed char dx, dy; };

static int walk(int k)
{
    const struct step knight[8] = { { 1, 2 }, { 2, 1 }, { 2, -1 }, { 1, -2 }, { -1, -2 }, { -2, -1 }, { -2, 1 }, { -1, 2 } };
    static const unsigned short primes[] = { 2, 3, 5, 7, 11, 13, 17, 19, 23, 29 };
    int copy[12] = { 1, 2, 3, 4, 5, 6, 7, 8, 9, 10 };
    struct step steps[10] = { { 1, 1 }, { 2, 2 }, { 3, 3 }, { 4, 4 }, { 5, 5 }, { 6, 6 }, { 7, 7 }, { 8, 8 }, { 9, 9 } };

    copy[k] += 100;
    steps[k].dx = -1;
    return knight[k].dx * 3 + knight[k].dy + primes[k + 1] + copy[k] + copy[11] + steps[k].dy + steps[9].dx;
}

int main(void)
{
    int total = 0, k;

    for (k = 0; k < 8; k++)
        total += walk(k) * (k + 1);
    putchar('0' + total % 10);
    putchar('\n');
    return total % 256;
}
