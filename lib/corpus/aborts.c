/* A program that is aborted behind what it wrote. */
#include <stdio.h>
#include <stdlib.h>

int main(void)
{
    puts("before");
    fflush(stdout);
    abort();
    puts("behind");
    return 0;
}
