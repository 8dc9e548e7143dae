/* Reads words, and writes each with how often it came: the most frequent first, and in the order of the alphabet where
   two came as often. The words stand in a table by their hash, in chains of structs, and are sorted as a list. */

int getchar(void);
int putchar(int c);
void exit(int status);

enum { CHAINS = 64, MOST_WORDS = 200, MOST_LETTERS = 4000 };

struct word {
    char *text;
    int count;
    struct word *next;
};

struct word words[MOST_WORDS];
char letters[MOST_LETTERS];
struct word *chains[CHAINS];
int words_used;
int letters_used;

int same(char *a, char *b)
{
    while (*a && *a == *b) {
        a++;
        b++;
    }
    return *a == *b;
}

/* Whether one word stands before another. */
int before(struct word *a, struct word *b)
{
    char *s = a->text;
    char *t = b->text;

    if (a->count != b->count)
        return a->count > b->count;
    for (; *s && *s == *t; s++)
        t++;
    return *s < *t;
}

unsigned hash(char *text)
{
    unsigned h = 2166136261u;

    for (; *text; text++)
        h = (h ^ (unsigned char)*text) * 16777619u;
    return h % CHAINS;
}

/* The place of a word in the table, which is made where there is none. */
struct word *find(char *text)
{
    unsigned chain = hash(text);
    struct word *w;

    for (w = chains[chain]; w; w = w->next)
        if (same(w->text, text))
            return w;
    if (words_used == MOST_WORDS)
        exit(1);
    w = &words[words_used++];
    w->text = text;
    w->count = 0;
    w->next = chains[chain];
    chains[chain] = w;
    return w;
}

/* Reads a word behind the letters that are in use, and gives its length, 0 at the end of the input. */
int read_word(void)
{
    int length = 0;
    int c = getchar();

    while (c == ' ' || c == '\n')
        c = getchar();
    while (c != -1 && c != ' ' && c != '\n') {
        if (letters_used + length + 1 == MOST_LETTERS)
            exit(2);
        letters[letters_used + length++] = c;
        c = getchar();
    }
    letters[letters_used + length] = 0;
    return length;
}

/* Puts a word into a list in its order. */
struct word *put_in(struct word *list, struct word *w)
{
    if (!list || before(w, list)) {
        w->next = list;
        return w;
    }
    list->next = put_in(list->next, w);
    return list;
}

void put_number(int n)
{
    if (n > 9)
        put_number(n / 10);
    putchar('0' + n % 10);
}

int main(void)
{
    struct word *list = 0;
    struct word *w;
    int length;
    int k;

    while ((length = read_word())) {
        w = find(letters + letters_used);
        if (w->count++ == 0)
            letters_used += length + 1;
    }
    for (k = 0; k < words_used; k++)
        list = put_in(list, &words[k]);
    for (w = list; w; w = w->next) {
        char *s;

        put_number(w->count);
        putchar(' ');
        for (s = w->text; *s; s++)
            putchar(*s);
        putchar('\n');
    }
    return words_used;
}
