/* zlib: crc32.c. */
#include <numbers.h>
#include "crc32.c"

int main(void)
{
    static unsigned char bytes[300];
    unsigned long sum = crc32(0, Z_NULL, 0);
    int k;

    for (k = 0; k < 300; k++)
        bytes[k] = k * 7 + k / 256;
    sum = crc32(sum, (const unsigned char *)"123456789", 9);
    put_hex(sum);
    putchar('\n');
    put_hex(crc32(sum, bytes, 300));
    putchar('\n');
    put_hex(crc32_combine(sum, crc32(0, bytes, 100), 100));
    putchar('\n');
    return 0;
}
