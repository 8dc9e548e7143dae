/* sizeof and offsets in constants, and arrays of such lengths. */
int putchar(int c);

struct mixed { char a; short b; char c; int d; char e; long f; char g[5]; };
union_free(void) { return 3; }
static char room[sizeof(struct mixed)], names[][6] = { "one", "two", "three" };
enum { COUNT = sizeof names / sizeof names[0], ROOM = sizeof room };

int main(void)
{
    int local[] = { 5, 6, 7 };
    enum { LOCAL = sizeof local / sizeof(int) };
    static int squares[LOCAL * 2] = { LOCAL };
    char text[sizeof "text"] = "text";

    putchar(text[sizeof text - 2]);
    putchar('\n');
    return COUNT + ROOM + LOCAL + squares[0] + (int)sizeof(squares) + (int)sizeof(char *[3]) + union_free();
}
