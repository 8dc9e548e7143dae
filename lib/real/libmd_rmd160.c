/* libmd: rmd160.c. */
#include <numbers.h>
#include "rmd160.c"

static void show(const char *text, int times)
{
    RMD160_CTX context;
    uint8_t digest[RMD160_DIGEST_LENGTH];
    int k;

    RMD160Init(&context);
    for (k = 0; k < times; k++)
        RMD160Update(&context, (const uint8_t *)text, strlen(text));
    RMD160Final(digest, &context);
    for (k = 0; k < RMD160_DIGEST_LENGTH; k++) {
        put_hex(digest[k] >> 4);
        put_hex(digest[k] & 15);
    }
    putchar('\n');
}

int main(void)
{
    show("", 1);
    show("abc", 1);
    show("abcdefghijklmnopqrstuvwxyz0123456789", 5);
    return 0;
}
