/* Static locals, of the same name in two functions and in two blocks of one. */
int putchar(int c);

static int next_even(void)
{
    static int count = -2;

    return count += 2;
}

static int next_odd(int again)
{
    static int count = -1;

    if (again) {
        static int count = 100, *where = &count;
        return ++*where;
    }
    return count += 2;
}

int main(void)
{
    int k, sum = 0;

    for (k = 0; k < 3; k++)
        sum = sum * 10 + next_even() + next_odd(0) + next_odd(1) - 100;
    putchar('0' + sum % 10);
    putchar('\n');
    return sum % 251;
}
