/* bzip2: crctable.c and randtable.c, with the macros of bzlib_private.h. */
#include <numbers.h>
#include "crctable.c"
#include "randtable.c"

int main(void)
{
    UInt32 crc;
    int k, sum = 0;

    BZ_INITIALISE_CRC(crc);
    for (k = 0; k < 300; k++)
        BZ_UPDATE_CRC(crc, (UChar)(k * 7));
    BZ_FINALISE_CRC(crc);
    put_hex(crc);
    putchar('\n');
    for (k = 0; k < 512; k++)
        sum += BZ2_rNums[k] * (k & 7);
    put_long(sum);
    putchar('\n');
    return 0;
}
