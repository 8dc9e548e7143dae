#include <errno.h>

/* ---- numbers */

int abs(int n)
{
    return n < 0 ? -n : n;
}

long labs(long n)
{
    return n < 0 ? -n : n;
}

long llabs(long n)
{
    return labs(n);
}

static int digit_value(int c)
{
    if (c >= '0' && c <= '9')
        return c - '0';
    if (c >= 'a' && c <= 'z')
        return c - 'a' + 10;
    if (c >= 'A' && c <= 'Z')
        return c - 'A' + 10;
    return 36;
}

/* A number as it is spelled: where its digits begin and end, its sign, and its size. */
struct spelled_number {
    const char *end;
    unsigned long size;
    int is_negative;
    int is_too_large;
};

static const char *skip_prefix(const char *s, int *base)
{
    if ((*base == 0 || *base == 16) && s[0] == '0' && (s[1] == 'x' || s[1] == 'X') && digit_value(s[2]) < 16) {
        *base = 16;
        return s + 2;
    }
    if (*base == 0)
        *base = s[0] == '0' ? 8 : 10;
    return s;
}

static void read_digits(const char *s, int base, struct spelled_number *n)
{
    unsigned long most = (unsigned long)-1;

    for (; digit_value(*s) < base; s++) {
        unsigned long digit = digit_value(*s);

        if (n->size > (most - digit) / base)
            n->is_too_large = 1;
        n->size = n->size * base + digit;
        n->end = s + 1;
    }
}

static void read_number(const char *s, int base, struct spelled_number *n)
{
    n->end = s;
    n->size = 0;
    n->is_negative = 0;
    n->is_too_large = 0;
    while (*s == ' ' || (*s >= '\t' && *s <= '\r'))
        s++;
    if (*s == '-' || *s == '+')
        n->is_negative = *s++ == '-';
    s = skip_prefix(s, &base);
    read_digits(s, base, n);
}

unsigned long strtoul(const char *s, char **end, int base)
{
    struct spelled_number n;

    read_number(s, base, &n);
    if (end)
        *end = (char *)n.end;
    if (n.is_too_large) {
        errno = ERANGE;
        return (unsigned long)-1;
    }
    return n.is_negative ? -n.size : n.size;
}

long strtol(const char *s, char **end, int base)
{
    struct spelled_number n;
    unsigned long most;

    read_number(s, base, &n);
    if (end)
        *end = (char *)n.end;
    most = ((unsigned long)-1 >> 1) + n.is_negative;
    if (n.is_too_large || n.size > most) {
        errno = ERANGE;
        n.size = most;
    }
    return n.is_negative ? -n.size : n.size;
}

long strtoll(const char *s, char **end, int base)
{
    return strtol(s, end, base);
}

unsigned long strtoull(const char *s, char **end, int base)
{
    return strtoul(s, end, base);
}

int atoi(const char *s)
{
    return strtol(s, NULL, 10);
}

long atol(const char *s)
{
    return strtol(s, NULL, 10);
}

long atoll(const char *s)
{
    return strtol(s, NULL, 10);
}

/* ---- numbers at random: the example of C99 7.20.2.2 */

static unsigned long rand_next = 1;

int rand(void)
{
    rand_next = rand_next * 1103515245 + 12345;
    return (unsigned)(rand_next / 65536) % 32768;
}

void srand(unsigned seed)
{
    rand_next = seed;
}

/* ---- memory. The arena is cut into blocks from its front; those that are free stand in a list by their places. */

struct arena_block {
    size_t size;
    struct arena_block *next;
};

struct arena_cell {
    char value;
};

static char arena[ARENA_BYTES];
static size_t arena_used;
static struct arena_block *arena_free;

/* A free block of at least a size is taken out of the list, and what it has too much goes back. */
static struct arena_block *take_free(size_t size)
{
    struct arena_block **place = &arena_free;
    struct arena_block *block;
    struct arena_block *rest;

    for (block = arena_free; block; block = block->next) {
        if (block->size >= size + 32) {
            rest = (struct arena_block *)((char *)block + size);
            rest->size = block->size - size;
            rest->next = block->next;
            *place = rest;
            block->size = size;
            return block;
        }
        if (block->size >= size) {
            *place = block->next;
            return block;
        }
        place = &block->next;
    }
    return NULL;
}

void *malloc(size_t n)
{
    struct arena_block *block;
    size_t size;

    if (n > ARENA_BYTES)
        return NULL;
    size = (n + 31) / 16 * 16;
    block = take_free(size);
    if (!block) {
        if (size > ARENA_BYTES - arena_used)
            return NULL;
        block = (struct arena_block *)(arena + arena_used);
        block->size = size;
        arena_used += size;
    }
    return (char *)block + 16;
}

/* One block out of two where one ends at the other. */
static void join_next(struct arena_block *block)
{
    struct arena_block *next = block->next;

    if (next && (char *)block + block->size == (char *)next) {
        block->size += next->size;
        block->next = next->next;
    }
}

void free(void *p)
{
    struct arena_block *block;
    struct arena_block *before = NULL;
    struct arena_block *next;

    if (!p)
        return;
    block = (struct arena_block *)((char *)p - 16);
    for (next = arena_free; next && next < block; next = next->next)
        before = next;
    block->next = next;
    if (before)
        before->next = block;
    else
        arena_free = block;
    join_next(block);
    if (before)
        join_next(before);
}

void *calloc(size_t count, size_t size)
{
    char *p;
    size_t k;

    if (size && count > ARENA_BYTES / size)
        return NULL;
    p = malloc(count * size);
    if (p)
        for (k = 0; k < count * size; k++)
            p[k] = 0;
    return p;
}

void *realloc(void *p, size_t n)
{
    struct arena_block *block;
    char *from = p;
    char *to;
    size_t kept;
    size_t k;

    if (!p)
        return malloc(n);
    block = (struct arena_block *)(from - 16);
    if (block->size - 16 >= n)
        return p;
    to = malloc(n);
    if (!to)
        return NULL;
    kept = block->size - 16;
    for (k = 0; k < kept; k++)
        *(struct arena_cell *)(to + k) = *(struct arena_cell *)(from + k);
    free(p);
    return to;
}
