/* bzip2: huffman.c. */
#include <numbers.h>
#include "huffman.c"

void BZ2_bz__AssertH__fail(int code)
{
    put_long(code);
    exit(3);
}

int main(void)
{
    UChar lengths[20];
    Int32 frequencies[20], codes[20], limit[BZ_MAX_CODE_LEN + 3], base[BZ_MAX_CODE_LEN + 3], perm[20];
    int k;

    for (k = 0; k < 20; k++)
        frequencies[k] = k * k * k % 97;
    BZ2_hbMakeCodeLengths(lengths, frequencies, 20, 8);
    BZ2_hbAssignCodes(codes, lengths, 1, 8, 20);
    BZ2_hbCreateDecodeTables(limit, base, perm, lengths, 1, 8, 20);
    for (k = 0; k < 20; k++) {
        put_wide(lengths[k], 3);
        put_wide(codes[k], 5);
        put_wide(perm[k], 4);
        if (k >= 1 && k <= 8) {
            put_wide(limit[k], 6);
            put_wide(base[k], 6);
        }
        putchar('\n');
    }
    return 0;
}
