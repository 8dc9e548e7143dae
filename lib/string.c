/* A cell is copied as a struct, so that a part of a pointer is copied too: as a number it may not be read. */
struct memory_cell {
    char value;
};

struct memory_cells {
    char values[8];
};

void *memcpy(void *to, const void *from, size_t n)
{
    char *d = to;
    const char *s = from;

    for (; n >= 8; n -= 8) {
        *(struct memory_cells *)d = *(struct memory_cells *)s;
        d += 8;
        s += 8;
    }
    for (; n > 0; n--)
        *(struct memory_cell *)d++ = *(struct memory_cell *)s++;
    return to;
}

/* Whether the copy has to go from the end, because it would write what it has still to read. */
static int writes_ahead(char *to, char *from, size_t n)
{
    size_t k;

    for (k = 1; k < n; k++)
        if (from + k == to)
            return 1;
    return 0;
}

void *memmove(void *to, const void *from, size_t n)
{
    char *d = to;
    char *s = (char *)from;

    if (n == 0 || d == s)
        return to;
    if (!writes_ahead(d, s, n)) {
        while (n-- > 0)
            *(struct memory_cell *)d++ = *(struct memory_cell *)s++;
        return to;
    }
    while (n-- > 0)
        *(struct memory_cell *)(d + n) = *(struct memory_cell *)(s + n);
    return to;
}

void *memset(void *s, int c, size_t n)
{
    char *d = s;

    while (n-- > 0)
        *d++ = c;
    return s;
}

int memcmp(const void *s, const void *t, size_t n)
{
    const unsigned char *a = s;
    const unsigned char *b = t;

    for (; n > 0; n--) {
        if (*a != *b)
            return *a - *b;
        a++;
        b++;
    }
    return 0;
}

void *memchr(const void *s, int c, size_t n)
{
    unsigned char *a = (unsigned char *)s;

    for (; n > 0; n--) {
        if (*a == (unsigned char)c)
            return a;
        a++;
    }
    return NULL;
}

size_t strlen(const char *s)
{
    size_t n = 0;

    while (s[n])
        n++;
    return n;
}

size_t strnlen(const char *s, size_t n)
{
    size_t k = 0;

    while (k < n && s[k])
        k++;
    return k;
}

char *strcpy(char *to, const char *from)
{
    char *d = to;

    while ((*d++ = *from++))
        ;
    return to;
}

char *strncpy(char *to, const char *from, size_t n)
{
    size_t k = 0;

    for (; k < n && from[k]; k++)
        to[k] = from[k];
    for (; k < n; k++)
        to[k] = 0;
    return to;
}

char *strcat(char *to, const char *from)
{
    strcpy(to + strlen(to), from);
    return to;
}

char *strncat(char *to, const char *from, size_t n)
{
    char *d = to + strlen(to);

    for (; n > 0 && *from; n--)
        *d++ = *from++;
    *d = 0;
    return to;
}

int strcmp(const char *s, const char *t)
{
    while (*s && *s == *t) {
        s++;
        t++;
    }
    return (unsigned char)*s - (unsigned char)*t;
}

int strcoll(const char *s, const char *t)
{
    return strcmp(s, t);
}

int strncmp(const char *s, const char *t, size_t n)
{
    for (; n > 0; n--) {
        if (*s != *t || !*s)
            return (unsigned char)*s - (unsigned char)*t;
        s++;
        t++;
    }
    return 0;
}

char *strchr(const char *s, int c)
{
    for (; *s != (char)c; s++)
        if (!*s)
            return NULL;
    return (char *)s;
}

char *strrchr(const char *s, int c)
{
    size_t n = strlen(s) + 1;

    while (n-- > 0)
        if (s[n] == (char)c)
            return (char *)s + n;
    return NULL;
}

size_t strspn(const char *s, const char *set)
{
    size_t n = 0;

    while (s[n] && strchr(set, s[n]))
        n++;
    return n;
}

size_t strcspn(const char *s, const char *set)
{
    size_t n = 0;

    while (s[n] && !strchr(set, s[n]))
        n++;
    return n;
}

char *strpbrk(const char *s, const char *set)
{
    s += strcspn(s, set);
    return *s ? (char *)s : NULL;
}

char *strstr(const char *s, const char *part)
{
    size_t n = strlen(part);

    for (;; s++) {
        if (strncmp(s, part, n) == 0)
            return (char *)s;
        if (!*s)
            return NULL;
    }
}

static char *strtok_rest;

char *strtok(char *s, const char *set)
{
    if (!s)
        s = strtok_rest;
    if (!s)
        return NULL;
    s += strspn(s, set);
    strtok_rest = NULL;
    if (!*s)
        return NULL;
    strtok_rest = strpbrk(s, set);
    if (strtok_rest)
        *strtok_rest++ = 0;
    return s;
}
