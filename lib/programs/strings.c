/* Works on the lines of its input: reverses words, counts letters, finds the longest word, writes all words in order. */
#include <ctype.h>
#include <stdint.h>
#include <stdio.h>
#include <stdlib.h>
#include <string.h>

#include <numbers.h>
#include <sort.h>

#define COUNT(a) (sizeof(a) / sizeof((a)[0]))

static char *copy(const char *s)
{
    char *t = malloc(strlen(s) + 1);

    return t ? strcpy(t, s) : NULL;
}

static void reverse(char *s)
{
    for (char *t = s + strlen(s); s < t; s++) {
        char c = *s;
        *s = *--t;
        *t = c;
    }
}

static uint32_t fnv(const char *s)
{
    uint32_t h = UINT32_C(2166136261);

    while (*s)
        h = (h ^ (uint8_t)*s++) * UINT32_C(16777619);
    return h;
}

static const char *title(char *s)
{
    static const char small[][4] = { "a", "an", "of", "the" };

    for (unsigned k = 0; k < COUNT(small); k++)
        if (!strcmp(s, small[k]))
            return s;
    s[0] = toupper((unsigned char)s[0]);
    return s;
}

int main(int argc, char *argv[])
{
    char line[100], *words[40];
    unsigned letters[26] = { 0 };
    char longest[32] = "";
    size_t count = 0;

    while (fgets(line, sizeof line, stdin)) {
        for (char *word = strtok(line, " ,.\n"); word && count < COUNT(words); word = strtok(NULL, " ,.\n")) {
            if (strlen(word) > strlen(longest))
                strncpy(longest, word, sizeof longest - 1);
            for (const char *s = word; *s; s++)
                if (isalpha((unsigned char)*s))
                    letters[tolower((unsigned char)*s) - 'a']++;
            words[count++] = copy(word);
        }
    }
    sort_texts(words, count);
    for (size_t k = 0; k < count; k++) {
        put_hex(fnv(words[k]) & 0xfff);
        putchar(' ');
        fputs(title(words[k]), stdout);
        reverse(words[k]);
        putchar(' ');
        puts(words[k]);
        free(words[k]);
    }
    fputs("longest: ", stdout), puts(longest);
    for (int c = 0; c < 26; c++)
        if (letters[c] > 2) {
            putchar('a' + c);
            put_unsigned(letters[c]);
            putchar(" \n"[c == 25]);
        }
    putchar('\n');
    return argc > 1 && argv[1] != NULL;
}
