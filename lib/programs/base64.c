/* Writes its input in base 64, reads that back, and compares. */
#include <stdint.h>
#include <stdio.h>
#include <stdlib.h>
#include <string.h>

static const char alphabet[64] = "ABCDEFGHIJKLMNOPQRSTUVWXYZabcdefghijklmnopqrstuvwxyz0123456789+/";

typedef struct buffer {
    uint8_t *bytes;
    size_t length, room;
} buffer;

static int buffer_put(buffer *b, uint8_t byte)
{
    if (b->length == b->room) {
        size_t room = b->room ? 2 * b->room : 16;
        uint8_t *bytes = realloc(b->bytes, room);
        if (!bytes)
            return -1;
        *b = (buffer){ bytes, b->length, room };
    }
    b->bytes[b->length++] = byte;
    return 0;
}

static void encode(const buffer *from, buffer *to)
{
    for (size_t k = 0; k < from->length; k += 3) {
        size_t left = from->length - k;
        uint32_t bits = (uint32_t)from->bytes[k] << 16;
        if (left > 1)
            bits |= (uint32_t)from->bytes[k + 1] << 8;
        if (left > 2)
            bits |= from->bytes[k + 2];
        for (int place = 18; place >= 0; place -= 6)
            buffer_put(to, (size_t)(18 - place) / 6 <= left ? alphabet[bits >> place & 63] : '=');
    }
}

static int value_of(int c)
{
    const char *place = memchr(alphabet, c, sizeof alphabet);

    return place ? (int)(place - alphabet) : -1;
}

static int decode(const buffer *from, buffer *to)
{
    unsigned long long bits = 0ULL;
    int count = 0;

    for (size_t k = 0; k < from->length; k++) {
        int value = value_of(from->bytes[k]);
        if (value < 0)
            break;
        bits = bits << 6 | (unsigned)value;
        count += 6;
        if (count >= 8) {
            count -= 8;
            buffer_put(to, bits >> count & 0xffULL);
        }
    }
    return count;
}

int main(void)
{
    buffer given = { NULL }, coded = given, back = given;
    volatile int c;

    while ((c = getchar()) != EOF)
        buffer_put(&given, c);
    encode(&given, &coded);
    for (size_t k = 0; k < coded.length; k++) {
        putchar(coded.bytes[k]);
        if (k % 32 == 31 || k + 1 == coded.length)
            putchar('\n');
    }
    decode(&coded, &back);
    if (back.length != given.length || memcmp(back.bytes, given.bytes, given.length)) {
        puts("it does not come back");
        return EXIT_FAILURE;
    }
    free(given.bytes), free(coded.bytes), free(back.bytes);
    return EXIT_SUCCESS;
}
