static FILE desk_files[3] = {{0, 0}, {1, 0}, {2, 0}};

int fgetc(FILE *file)
{
    int c = getchar();

    if (c == EOF)
        file->is_at_end = 1;
    return c;
}

int getc(FILE *file)
{
    return fgetc(file);
}

int feof(FILE *file)
{
    return file->is_at_end;
}

int fputc(int c, FILE *file)
{
    return file->number == 1 ? putchar(c) : (int)(unsigned char)c;
}

int putc(int c, FILE *file)
{
    return fputc(c, file);
}

int fputs(const char *s, FILE *file)
{
    for (; *s; s++)
        fputc(*s, file);
    return 0;
}

int puts(const char *s)
{
    fputs(s, stdout);
    putchar('\n');
    return 0;
}

char *fgets(char *s, int size, FILE *file)
{
    int length = 0;
    int c = 0;

    while (length < size - 1 && c != '\n') {
        c = fgetc(file);
        if (c == EOF)
            break;
        s[length++] = c;
    }
    if (length == 0)
        return NULL;
    s[length] = 0;
    return s;
}

int fflush(FILE *file)
{
    return 0;
}
