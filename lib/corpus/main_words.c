/* main with words, of which there is one, the name of the program. */
int putchar(int c);

int main(int argc, char *argv[])
{
    int k;

    for (k = 1; k < argc; k++)
        putchar('x');
    putchar(argv[argc] == 0 ? 'n' : 'p');
    putchar('\n');
    return argc;
}
