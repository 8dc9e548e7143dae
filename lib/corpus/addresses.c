/* Addresses and casts in initialisers of objects of static storage. */
int putchar(int c);

struct node { struct node *next; int value; int parts[3]; };

static int numbers[10] = { 0, 1, 2, 3, 4, 5, 6, 7, 8, 9 };
static int grid[2][3] = { { 1, 2, 3 }, { 4, 5, 6 } };
static int *fifth = &numbers[5], *third = numbers + 3, *end = &numbers[10] - 1, *corner = &grid[1][2];
static const char *const words[] = { "one", (const char *)"two", &"xthree"[1] };
static struct node nodes[3] = { { &nodes[1], 10 }, { nodes + 2, 20, { 1, 2, 3 } }, { 0, 30 } };
static int *part = &nodes[1].parts[2], *value = &nodes[2].value;
static void *anything = (void *)&numbers[2];
static unsigned char *bytes = (unsigned char *)numbers;
static char *null = (void *)0;

int main(void)
{
    static int *inner = &numbers[7], *deep = &nodes[0].value;
    struct node *n;
    int total = *fifth + *third * 2 + *end * 3 + *corner * 5 + *part * 7 + *value + *inner + *deep;

    for (n = nodes; n; n = n->next)
        total += n->value;
    total += words[0][0] + words[1][1] + words[2][0] + *(int *)anything + bytes[4] + (null == 0);
    putchar('0' + total % 10);
    putchar('\n');
    return total % 256;
}
