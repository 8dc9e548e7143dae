/* One struct body with several declarators, in typedefs and members. */
int putchar(int c);

struct { int a; } first = { 1 }, *second = &first, third[2] = { { 3 }, { 4 } };
typedef struct tree { struct tree *left, *right; int key; } tree, *tree_ptr;
struct outer { struct inner { short s; } in, *to; enum { ON, OFF } state; } outer = { { 5 }, &outer.in, OFF };

static int sum(const tree *t)
{
    return t ? t->key + sum(t->left) + sum(t->right) : 0;
}

int main(void)
{
    tree leaf = { 0, 0, 7 }, top = { &leaf, .key = 2 };
    tree_ptr p = &top;
    struct inner in = { 6 };

    first.a = 8;
    putchar('0' + second->a);
    putchar('\n');
    return sum(p) + third[1].a + outer.to->s + outer.state + in.s;
}
