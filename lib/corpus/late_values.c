/* Members and casts make addresses that are assigned as main begins, also for a static local that is used first elsewhere. */
int putchar(int c);

struct pair { char first; int second; };

static struct pair pairs[2] = { { 1, 2 }, { 3, 4 } };
static int *seconds[] = { &pairs[0].second, &pairs[1].second, 0 };
static const struct { const void *key; char *first; } table[] = { { &pairs[1], &pairs[1].first }, { seconds, &pairs[0].first } };

static int counted(void)
{
    static int *at = &pairs[1].second;

    return (*at)++;
}

static int early = sizeof(pairs) / sizeof(pairs[0]);

int main(void)
{
    int total = *seconds[0] + *seconds[1] * 10 + *table[0].first * 100 + counted() + counted() + early, k;

    for (k = 0; seconds[k]; k++)
        total += *seconds[k];
    putchar('0' + total % 10);
    putchar('\n');
    return total % 256;
}
