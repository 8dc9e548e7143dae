int dot(int a0, int a1, int a2, int a3, int a4, int a5, int a6,
        int a7, int a8, int a9, int a10, int a11, int a12, int a13,
        int b0, int b1, int b2, int b3, int b4, int b5, int b6,
        int b7, int b8, int b9, int b10, int b11, int b12, int b13)
{
    int sum = a0 * b0 + a1 * b1 + a2 * b2 + a3 * b3 + a4 * b4 + a5 * b5
        + a6 * b6 + a7 * b7 + a8 * b8 + a9 * b9;

    putchar('.');
    return sum + a10 * b10 + a11 * b11 + a12 * b12 + a13 * b13;
}

int main(void)
{
    return dot(1, 2, 3, 4, 5, 6, 7, 8, 9, 10, 11, 12, 13, 14,
               15, 16, 17, 18, 19, 20, 21, 22, 23, 24, 25, 26, 27, 28);
}
