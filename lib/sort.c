/* Both sorts are by heaps: the greatest of the first `count` goes to their end, until one is left. */

static void sift_long(long *words, size_t at, size_t count)
{
    long word = words[at];
    size_t child;

    while ((child = 2 * at + 1) < count) {
        if (child + 1 < count && words[child + 1] > words[child])
            child++;
        if (words[child] <= word)
            break;
        words[at] = words[child];
        at = child;
    }
    words[at] = word;
}

void sort_longs(long *words, size_t count)
{
    size_t k;

    for (k = count / 2; k > 0; k--)
        sift_long(words, k - 1, count);
    for (; count > 1; count--) {
        long last = words[count - 1];

        words[count - 1] = words[0];
        words[0] = last;
        sift_long(words, 0, count - 1);
    }
}

static int is_text_before(const char *s, const char *t)
{
    while (*s && *s == *t) {
        s++;
        t++;
    }
    return (unsigned char)*s < (unsigned char)*t;
}

static void sift_text(char **texts, size_t at, size_t count)
{
    char *text = texts[at];
    size_t child;

    while ((child = 2 * at + 1) < count) {
        if (child + 1 < count && is_text_before(texts[child], texts[child + 1]))
            child++;
        if (!is_text_before(text, texts[child]))
            break;
        texts[at] = texts[child];
        at = child;
    }
    texts[at] = text;
}

void sort_texts(char **texts, size_t count)
{
    size_t k;

    for (k = count / 2; k > 0; k--)
        sift_text(texts, k - 1, count);
    for (; count > 1; count--) {
        char *last = texts[count - 1];

        texts[count - 1] = texts[0];
        texts[0] = last;
        sift_text(texts, 0, count - 1);
    }
}
