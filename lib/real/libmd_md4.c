/* libmd: md4.c. */
#include <numbers.h>
#include "md4.c"

static void show(const char *text, int times)
{
    MD4_CTX context;
    uint8_t digest[MD4_DIGEST_LENGTH];
    int k;

    MD4Init(&context);
    for (k = 0; k < times; k++)
        MD4Update(&context, (const uint8_t *)text, strlen(text));
    MD4Final(digest, &context);
    for (k = 0; k < MD4_DIGEST_LENGTH; k++) {
        put_hex(digest[k] >> 4);
        put_hex(digest[k] & 15);
    }
    putchar('\n');
}

int main(void)
{
    show("", 1);
    show("abc", 1);
    show("abcdefghijklmnopqrstuvwxyz0123456789", 5);
    return 0;
}
