/* inline, register, restrict, volatile, auto and attributes. */
int putchar(int c);

static inline int add(int a, register int b) { return a + b; }
static __inline__ __attribute__((always_inline)) int twice(const int n) { return add(n, n); }
extern int spare(int) __attribute__((noreturn, nonnull));
__extension__ typedef long long wide_t;

static void copy(char *restrict to, const char *__restrict from, unsigned n)
{
    while (n--)
        *to++ = *from++;
}

struct packed { char a, b; } __attribute__((packed, aligned(2)));
static volatile int flag __attribute__((unused)) = 3;

int main(void)
{
    auto int a = 1;
    register unsigned k;
    char room[4];
    struct packed p = { 1, 2 };
    volatile const wide_t w = 5;

    copy(room, "abc", 4);
    for (k = 0; k < 3; k++)
        putchar(room[k]);
    putchar('\n');
    return twice(a) + flag + p.b + (int)w;
}
