/* A list in an array of structs, kept in order, and a queue over it. */

int putchar(int c);

struct item {
    int key;
    int value;
    int next;
};

struct item items[200];
int head = -1;
int used = 0;

void put_number(unsigned long n)
{
    if (n > 9)
        put_number(n / 10);
    putchar('0' + (int)(n % 10));
}

void insert(int key, int value)
{
    int before = -1;
    int at = head;

    while (at >= 0 && items[at].key < key) {
        before = at;
        at = items[at].next;
    }
    if (at >= 0 && items[at].key == key) {
        items[at].value += value;
        return;
    }
    items[used].key = key;
    items[used].value = value;
    items[used].next = at;
    if (before < 0)
        head = used;
    else
        items[before].next = used;
    used++;
}

int main(void)
{
    unsigned state = 11;
    unsigned long sum = 0;
    struct item *p;
    int i;

    for (i = 0; i < 400; i++) {
        state = state * 1664525u + 1013904223u;
        insert((int)(state >> 25), i);
    }
    for (i = head; i >= 0; i = p->next) {
        p = &items[i];
        sum = sum * 31 + (unsigned long)p->key * 1000 + (unsigned long)p->value;
    }
    put_number(sum);
    putchar('\n');
    return 0;
}
