/* Reads sums, one a line, and writes what each comes to: numbers, brackets, + - * / % and variables of one letter, which
 * `name = sum` sets. */
#include <ctype.h>
#include <stdbool.h>
#include <stdio.h>
#include <stdlib.h>
#include <string.h>

#include <numbers.h>

#define MOST 128

enum fault { NONE, SYNTAX, ZERO, UNKNOWN };

static const char *const words[] = {
    [SYNTAX] = "that is no sum",
    [ZERO] = "a division by zero",
    [UNKNOWN] = "a variable without a value",
};

struct variable {
    bool is_set;
    long value;
};

static struct variable variables[26];

typedef struct {
    const char *at;
    enum fault fault;
} reader;

static long sum(reader *r);

static void skip(reader *r)
{
    while (isspace((unsigned char)*r->at))
        r->at++;
}

static bool takes(reader *r, char c)
{
    skip(r);
    if (*r->at != c)
        return false;
    r->at++;
    return true;
}

static long fail(reader *r, enum fault fault)
{
    if (r->fault == NONE)
        r->fault = fault;
    return 0;
}

static long variable(reader *r)
{
    struct variable *v = &variables[*r->at++ - 'a'];

    return v->is_set ? v->value : fail(r, UNKNOWN);
}

static long factor(reader *r)
{
    if (takes(r, '-'))
        return -factor(r);
    if (takes(r, '(')) {
        long value = sum(r);
        return takes(r, ')') ? value : fail(r, SYNTAX);
    }
    if (isdigit((unsigned char)*r->at)) {
        char *end;
        long value = strtol(r->at, &end, 10);
        r->at = end;
        return value;
    }
    if (islower((unsigned char)*r->at))
        return variable(r);
    return fail(r, SYNTAX);
}

static long product(reader *r)
{
    long value = factor(r);

    for (;;) {
        skip(r);
        switch (*r->at) {
            long by;
        case '*':
            r->at++;
            value *= factor(r);
            break;
        case '/':
        case '%': {
            char op = *r->at++;
            by = factor(r);
            if (by == 0)
                return fail(r, ZERO);
            value = op == '/' ? value / by : value % by;
            break;
        }
        default:
            return value;
        }
    }
}

static long sum(reader *r)
{
    long value = product(r);

    for (;;) {
        if (takes(r, '+'))
            value += product(r);
        else if (takes(r, '-'))
            value -= product(r);
        else
            return value;
    }
}

static const char *assigned(const char *line)
{
    const char *equals = strchr(line, '=');

    return equals && islower((unsigned char)line[0]) ? equals + 1 : NULL;
}

static int lines(void)
{
    static int count = 0;

    return ++count;
}

int main(void)
{
    char line[MOST];
    int faults = 0;

    while (fgets(line, sizeof line, stdin)) {
        const char *right = assigned(line);
        reader r = { .at = right ? right : line };
        long value = sum(&r);

        skip(&r);
        if (*r.at)
            fail(&r, SYNTAX);
        put_wide(lines(), 3);
        fputs(": ", stdout);
        if (r.fault) {
            faults++;
            puts(words[r.fault]);
            continue;
        }
        if (right)
            variables[line[0] - 'a'] = (struct variable){ true, value };
        put_long(value);
        putchar('\n');
    }
    return faults;
}
