/* switch: declarations in its braces, blocks, fall through, labels together, and a statement with no braces. */
int putchar(int c);

enum kind { ZERO, ONE, TWO, MANY = 10 };

static int weigh(enum kind k)
{
    switch (k) {
        int n;
    case ZERO:
    case ONE:
        n = k + 1;
        return n;
    case TWO: {
        int n = 20;
        return n;
    }
    case MANY:
        n = 5;
        int twice = n * 2, parts[2] = { n, 1 };
        return twice + parts[0];
    default:
        break;
    }
    switch (k - 3)
    case 1:
        return 99;
    switch (k)
        ;
    return -1;
}

int main(void)
{
    int total = 0, k;

    for (k = 0; k < 12; k++)
        total = total * 3 % 1000 + weigh(k);
    putchar('0' + total % 10);
    putchar('\n');
    return total % 256;
}
