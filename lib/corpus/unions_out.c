/* What is not turned counts only where main reaches it. */
int putchar(int c);

union word { int i; char c[4]; };
static double half(double d) { return d / 2; }
static int first(union word *w) { return w->c[0]; }
typedef int (*compare)(const void *, const void *);
struct ops { compare by; float f; unsigned bits : 3; };
static int print(const char *format, ...) { return 0; }

int main(void)
{
    putchar('k');
    putchar('\n');
    return 5;
}
