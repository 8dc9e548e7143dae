/* Calls: numbers of Fibonacci, the towers of Hanoi, and a function with many parameters. */

int putchar(int c);

int moves[3][3];

void put_number(unsigned long n)
{
    if (n > 9)
        put_number(n / 10);
    putchar('0' + (int)(n % 10));
}

int fibonacci(int n)
{
    return n < 2 ? n : fibonacci(n - 1) + fibonacci(n - 2);
}

void hanoi(int n, int from, int to, int over)
{
    if (n == 0)
        return;
    hanoi(n - 1, from, over, to);
    moves[from][to]++;
    hanoi(n - 1, over, to, from);
}

int mixed(int a, int b, int c, int d, int e, int f, int g, int h)
{
    return a - b * 2 + c - d + e * 3 - f + g - h;
}

int main(void)
{
    unsigned long sum = 0;
    int i;

    sum = (unsigned long)fibonacci(17);
    hanoi(9, 0, 2, 1);
    for (i = 0; i < 9; i++)
        sum = sum * 11 + (unsigned long)moves[i / 3][i % 3];
    for (i = 0; i < 200; i++)
        sum = sum * 3 + (unsigned long)(mixed(i, i + 1, i + 2, i + 3, i + 4, i + 5, i + 6, i + 7) + 100);
    put_number(sum);
    putchar('\n');
    return 0;
}
