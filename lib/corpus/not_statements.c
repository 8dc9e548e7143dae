/* Jumps that are not turned. */
int putchar(int c);

int main(void)
{
    int k = 0;

again: /* not turned: label again */
    if (k++ < 3)
        goto again; /* not turned: goto */
    switch (k & 1) {
    case 1:
        while (k < 10) {
        case 0: /* not turned: case within a statement of its switch */
            k++;
        }
    }
    return k;
}
