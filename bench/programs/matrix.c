/* Multiplies matrices of 24 rows, and turns one over. */

int putchar(int c);

int left[24][24];
int right[24][24];
int product[24][24];

void put_number(unsigned long n)
{
    if (n > 9)
        put_number(n / 10);
    putchar('0' + (int)(n % 10));
}

void multiply(void)
{
    int i;
    int j;
    int k;

    for (i = 0; i < 24; i++)
        for (j = 0; j < 24; j++) {
            int sum = 0;

            for (k = 0; k < 24; k++)
                sum += left[i][k] * right[k][j];
            product[i][j] = sum;
        }
}

void turn(void)
{
    int i;
    int j;

    for (i = 0; i < 24; i++)
        for (j = 0; j < i; j++) {
            int t = right[i][j];

            right[i][j] = right[j][i];
            right[j][i] = t;
        }
}

int main(void)
{
    unsigned long sum = 0;
    int round;
    int i;
    int j;

    for (i = 0; i < 24; i++)
        for (j = 0; j < 24; j++) {
            left[i][j] = i * 3 - j;
            right[i][j] = j * 2 - i + 1;
        }
    for (round = 0; round < 3; round++) {
        multiply();
        turn();
        for (i = 0; i < 24; i++)
            for (j = 0; j < 24; j++)
                sum = sum * 17 + (unsigned long)(product[i][j] + 100000);
    }
    put_number(sum);
    putchar('\n');
    return 0;
}
