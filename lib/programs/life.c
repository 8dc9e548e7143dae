/*
 * The game of life on a torus. The first line of the input is the number of generations; then rows of '.' and '#'.
 */
#include <stdio.h>
#include <string.h>

#include <numbers.h>

enum { ROWS = 8, COLUMNS = 12, GENERATIONS = 12 };

typedef unsigned char world[ROWS][COLUMNS];

static const struct { signed char row, column; } around[8] = {
    { -1, -1 }, { -1, 0 }, { -1, 1 }, { 0, -1 }, { 0, 1 }, { 1, -1 }, { 1, 0 }, { 1, 1 },
};

/* Whether a cell lives, by whether it did and how many of its neighbours did. */
static const unsigned char lives[2][9] = { [0] = { [3] = 1 }, [1] = { [2] = 1, [3] = 1 } };

static inline int wrap(int k, int count)
{
    return (k + count) % count;
}

static int neighbours(world w, int row, int column)
{
    int count = 0;

    for (unsigned k = 0; k < sizeof around / sizeof *around; k++)
        count += w[wrap(row + around[k].row, ROWS)][wrap(column + around[k].column, COLUMNS)];
    return count;
}

static void step(world from, world to)
{
    for (int row = 0; row < ROWS; row++)
        for (int column = 0; column < COLUMNS; column++)
            to[row][column] = lives[from[row][column]][neighbours(from, row, column)];
}

static int write(world w)
{
    int count = 0;

    for (register int row = 0; row < ROWS; row++) {
        char line[COLUMNS + 1] = { 0 };
        for (int column = 0; column < COLUMNS; column++) {
            line[column] = ".#"[w[row][column]];
            count += w[row][column];
        }
        puts(line);
    }
    return count;
}

int main(void)
{
    static world worlds[2];
    world *now = &worlds[0], *next = &worlds[1];
    long generations = GENERATIONS;
    char line[80];
    int alive = 0;

    get_long(&generations);
    for (int row = 0; row < ROWS && get_line(line, sizeof line) >= 0; row++)
        for (int column = 0; column < COLUMNS && line[column]; column++)
            (*now)[row][column] = line[column] == '#';
    for (long k = 0; k < generations; k++) {
        world *other = now;
        step(*now, *next);
        now = next;
        next = other;
    }
    alive = write(*now);
    return alive;
}
