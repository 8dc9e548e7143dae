/* Left-out inner braces, braces round scalars, and texts in braces, at file scope. */
int putchar(int c);

static int square[2][3] = { 1, 2, 3, 4, 5 }, cube[2][2][2] = { { 1 }, { { 2, 3 }, 4 } }, one = { 7 };
static char text[8] = { "text" }, texts[][4] = { "a", { "bc" }, { 'd', 'e' } };
static struct { int a; struct { int b[2], c; } d; int e; } deep[2] = { 1, 2, 3, 4, 5, { 6, { { 7 } } } };

int main(void)
{
    int total = square[1][1] * 2 + square[1][2] + cube[0][0][1] + cube[1][0][1] * 3 + cube[1][1][0] * 5 + one;

    total += text[3] + text[4] + texts[0][0] + texts[1][1] + texts[2][1] + (int)sizeof texts;
    total += deep[0].d.b[1] + deep[0].d.c * 2 + deep[0].e * 3 + deep[1].a + deep[1].d.b[0] + deep[1].e;
    putchar('0' + total % 10);
    putchar('\n');
    return total % 256;
}
