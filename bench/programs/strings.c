/* Lengths, copies, comparisons, searches and turned texts. */

int putchar(int c);

static const char text[] =
    "the quick brown fox jumps over the lazy dog and the dog sleeps while the fox runs through the wood again";
char copy[200];
char turned[200];

void put_number(unsigned long n)
{
    if (n > 9)
        put_number(n / 10);
    putchar('0' + (int)(n % 10));
}

int length(const char *s)
{
    int n = 0;

    while (s[n])
        n++;
    return n;
}

void copy_text(char *to, const char *from)
{
    while ((*to++ = *from++))
        ;
}

int compare(const char *a, const char *b)
{
    while (*a && *a == *b) {
        a++;
        b++;
    }
    return *a - *b;
}

int find(const char *s, const char *wanted)
{
    int at;

    for (at = 0; s[at]; at++) {
        int k = 0;

        while (wanted[k] && s[at + k] == wanted[k])
            k++;
        if (!wanted[k])
            return at;
    }
    return -1;
}

int words(const char *s)
{
    int count = 0;
    int inside = 0;

    for (; *s; s++)
        if (*s == ' ')
            inside = 0;
        else if (!inside) {
            inside = 1;
            count++;
        }
    return count;
}

void turn(const char *s, char *to)
{
    int n = length(s);
    int i;

    for (i = 0; i < n; i++)
        to[i] = s[n - 1 - i];
    to[n] = 0;
}

int main(void)
{
    unsigned long sum = 0;
    int round;

    for (round = 0; round < 12; round++) {
        copy_text(copy, text);
        copy[round] = 'x';
        turn(copy, turned);
        turn(turned, copy);
        sum = sum * 13 + (unsigned long)(find(copy, "wood") + words(copy) + compare(copy, text) + 200);
        sum = sum * 13 + (unsigned long)(find(copy, "water") + 2);
    }
    put_number(sum);
    putchar('\n');
    return 0;
}
