/* A program that ends within a call. */
#include <stdio.h>
#include <stdlib.h>

static int half(int n)
{
    if (n % 2) {
        puts("odd");
        exit(n);
    }
    return n / 2;
}

int main(void)
{
    int n = 52;

    for (;;)
        n = half(n);
}
