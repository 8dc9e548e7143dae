/* Values of constants that decide lengths and labels. */
int putchar(int c);

#define MASK (~(~0U << 4))
enum { A = 'a', B = A + 1, C = (B > A) ? 3 : 4, D = -7 / 2, E = -7 % 2, F = (unsigned char)300, G = 1 || 0 };
static int table[C + 4 * (MASK == 15)] = { [MASK & 5] = D, [0] = E, [C] = F };

static int label(int n)
{
    switch (n) {
    case A: return 1;
    case B: return 2;
    case C << 2: return 3;
    case -1: return 4;
    case sizeof(long): return 5;
    }
    return 0;
}

int main(void)
{
    int total = label('a') + label('b') * 2 + label(12) * 3 + label(-1) * 5 + label(8) * 7 + label(9), k;

    for (k = 0; k < (int)(sizeof table / sizeof *table); k++)
        total += table[k] * (k + 1);
    putchar('0' + G);
    putchar('\n');
    return total % 256;
}
