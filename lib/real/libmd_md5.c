/* libmd: md5.c. */
#include <numbers.h>
#include "md5.c"

static void show(const char *text, int times)
{
    MD5_CTX context;
    uint8_t digest[MD5_DIGEST_LENGTH];
    int k;

    MD5Init(&context);
    for (k = 0; k < times; k++)
        MD5Update(&context, (const uint8_t *)text, strlen(text));
    MD5Final(digest, &context);
    for (k = 0; k < MD5_DIGEST_LENGTH; k++) {
        put_hex(digest[k] >> 4);
        put_hex(digest[k] & 15);
    }
    putchar('\n');
}

int main(void)
{
    show("", 1);
    show("abc", 1);
    show("abcdefghijklmnopqrstuvwxyz0123456789", 5);
    return 0;
}
