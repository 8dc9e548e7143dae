/* Characters and texts over putchar and getchar; what is put to stderr is dropped. There is no printf: numbers.h has
   functions for numbers. The functions stand in stdio.c. */
#ifndef DESK_STDIO_H
#define DESK_STDIO_H

#include <stddef.h>

#define EOF (-1)

typedef struct desk_file {
    int number;
    int is_at_end;
} FILE;

#define stdin (&desk_files[0])
#define stdout (&desk_files[1])
#define stderr (&desk_files[2])

int getchar(void);
int putchar(int c);
int fgetc(FILE *file);
int getc(FILE *file);
int feof(FILE *file);
int fputc(int c, FILE *file);
int putc(int c, FILE *file);
int puts(const char *s);
int fputs(const char *s, FILE *file);
char *fgets(char *s, int size, FILE *file);
int fflush(FILE *file);

#include "stdio.c"

#endif
