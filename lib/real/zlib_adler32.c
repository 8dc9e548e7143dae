/* zlib: adler32.c. */
#include <numbers.h>
#include "adler32.c"

int main(void)
{
    static unsigned char bytes[6000];
    unsigned long sum;
    int k;

    for (k = 0; k < 6000; k++)
        bytes[k] = k * 7 + k / 256;
    sum = adler32(0, Z_NULL, 0);
    sum = adler32(sum, bytes, 5);
    sum = adler32(sum, bytes + 5, 1);
    put_hex(sum);
    putchar('\n');
    put_hex(adler32(sum, bytes, 6000));
    putchar('\n');
    put_hex(adler32_combine(sum, adler32(1, bytes, 100), 100));
    putchar('\n');
    return 0;
}
