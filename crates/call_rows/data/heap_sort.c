/* Reads numbers, sorts them by a heap, and puts them one in a line. It returns how many there were. */

int getchar(void);
int putchar(int c);

enum { MOST = 256 };

struct heap {
    int count;
    long values[MOST];
};

struct heap numbers;

/* The next number of the input, into the place; 0 at the end of the input. */
int read_number(long *place)
{
    int c = getchar();
    int is_negative = 0;
    long value = 0;

    while (c == ' ' || c == '\n')
        c = getchar();
    if (c == '-') {
        is_negative = 1;
        c = getchar();
    }
    if (c < '0' || c > '9')
        return 0;
    do {
        value = value * 10 + (c - '0');
        c = getchar();
    } while (c >= '0' && c <= '9');
    *place = is_negative ? -value : value;
    return 1;
}

void put_number(long n)
{
    if (n < 0) {
        putchar('-');
        n = -n;
    }
    if (n > 9)
        put_number(n / 10);
    putchar((int)('0' + n % 10));
}

void swap(long *a, long *b)
{
    long value = *a;

    *a = *b;
    *b = value;
}

/* Lets the value at a place sink below the greater ones among the first values. */
void sink(struct heap *h, int at, int count)
{
    for (;;) {
        int child = 2 * at + 1;

        if (child >= count)
            return;
        if (child + 1 < count && h->values[child + 1] > h->values[child])
            child++;
        if (h->values[at] >= h->values[child])
            return;
        swap(&h->values[at], &h->values[child]);
        at = child;
    }
}

void sort(struct heap *h)
{
    int at;

    for (at = h->count / 2 - 1; at >= 0; at--)
        sink(h, at, h->count);
    for (at = h->count - 1; at > 0; at--) {
        swap(&h->values[0], &h->values[at]);
        sink(h, 0, at);
    }
}

int main(void)
{
    int at;

    while (numbers.count < MOST && read_number(&numbers.values[numbers.count]))
        numbers.count++;
    sort(&numbers);
    for (at = 0; at < numbers.count; at++) {
        put_number(numbers.values[at]);
        putchar('\n');
    }
    return numbers.count;
}
