/* Counts the ways to place eight queens on a board so that none attacks another, and puts the first. */

int putchar(int c);

enum { SIZE = 8 };

int column_of[SIZE];
long solutions;

int is_attacked(int row, int column)
{
    int above;

    for (above = 0; above < row; above++) {
        int distance = row - above;
        int other = column_of[above];

        if (other == column || other == column - distance || other == column + distance)
            return 1;
    }
    return 0;
}

void put_board(void)
{
    int row;
    int column;

    for (row = 0; row < SIZE; row++) {
        for (column = 0; column < SIZE; column++)
            putchar(column_of[row] == column ? 'Q' : '.');
        putchar('\n');
    }
}

void place(int row)
{
    int column;

    if (row == SIZE) {
        if (solutions == 0)
            put_board();
        solutions++;
        return;
    }
    for (column = 0; column < SIZE; column++) {
        if (!is_attacked(row, column)) {
            column_of[row] = column;
            place(row + 1);
        }
    }
}

int main(void)
{
    place(0);
    return (int)solutions;
}
