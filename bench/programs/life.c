/* The game of life on a torus of 32 by 32 cells. */

int putchar(int c);

unsigned char cells[1024];
unsigned char other[1024];

void put_number(unsigned long n)
{
    if (n > 9)
        put_number(n / 10);
    putchar('0' + (int)(n % 10));
}

int neighbours(const unsigned char *field, int row, int column)
{
    int count = 0;
    int i;
    int j;

    for (i = -1; i <= 1; i++)
        for (j = -1; j <= 1; j++)
            if (i != 0 || j != 0)
                count += field[((row + i) & 31) * 32 + ((column + j) & 31)];
    return count;
}

void step(const unsigned char *from, unsigned char *to)
{
    int row;
    int column;

    for (row = 0; row < 32; row++)
        for (column = 0; column < 32; column++) {
            int count = neighbours(from, row, column);

            to[row * 32 + column] = count == 3 || (count == 2 && from[row * 32 + column]);
        }
}

int main(void)
{
    unsigned state = 3;
    unsigned long alive = 0;
    int i;

    for (i = 0; i < 1024; i++) {
        state = state * 1103515245u + 12345u;
        cells[i] = (unsigned char)(state >> 30 & 1);
    }
    for (i = 0; i < 4; i++) {
        step(cells, other);
        step(other, cells);
    }
    for (i = 0; i < 1024; i++)
        alive = alive * 3 + cells[i];
    put_number(alive);
    putchar('\n');
    return 0;
}
