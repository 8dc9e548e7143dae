/* xxhash: XXH32 and XXH64 of xxhash.h. */
#define XXH_NO_XXH3
#define XXH_STATIC_LINKING_ONLY
#define XXH_IMPLEMENTATION
#include <numbers.h>
#include "xxhash.h"

int main(void)
{
    static unsigned char bytes[200];
    int k;

    for (k = 0; k < 200; k++)
        bytes[k] = k * 11 + 3;
    for (k = 0; k <= 200; k += 25) {
        put_hex(XXH32(bytes, k, 1));
        putchar(' ');
        put_hex(XXH64(bytes, k, 7));
        putchar('\n');
    }
    return 0;
}
