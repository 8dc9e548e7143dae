/* Reads numbers, and writes them sorted. */
#include <stdio.h>
#include <numbers.h>
#include <sort.h>

int main(void)
{
    long words[20];
    size_t count = 0, k;

    while (count < 20 && get_long(&words[count]))
        count++;
    sort_longs(words, count);
    for (k = 0; k < count; k++) {
        put_wide(words[k], 6);
        putchar('\n');
    }
    return count;
}
