/* Declarations within functions, tentative definitions, and what headers declare and nobody uses. */
#include <stdio.h>
#include <math.h>
#include <signal.h>
#include <time.h>

int total;
int total;

int twice(int n);

int main(void)
{
    extern int total, later[];
    int twice(int), k;

    for (k = 0; k < 3; k++)
        total += twice(later[k]);
    putchar('0' + total % 10);
    puts("");
    return total;
}

int later[] = { 5, 6, 7 };
int total;
int twice(int n) { return 2 * n; }
