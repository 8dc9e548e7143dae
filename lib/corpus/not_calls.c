/* Calls that are not turned. */
#include <math.h>
#include <stdarg.h>
int printf(const char *format, ...);

static int sum(int n, ...) /* not turned: variable arguments of sum */
{
    va_list list;
    int s = 0;

    va_start(list, n); /* not turned: variable arguments */
    while (n-- > 0)
        s += va_arg(list, int); /* not turned: variable arguments */
    va_end(list); /* not turned: variable arguments */
    return s;
}

int main(void)
{
    printf("%d\n", 3); /* not turned: variable arguments of printf */
    return sum(2, 3, 4) + abs(-3); /* not turned: variable arguments of sum */ /* not turned: function abs, which is not declared */
}
