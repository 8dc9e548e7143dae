/* Numbers and lines over putchar and getchar. No C library has this header, so it is plain C for other compilers too. */
#ifndef DESK_NUMBERS_H
#define DESK_NUMBERS_H

int putchar(int c);
int getchar(void);

void put_text(const char *s);
void put_long(long n);
void put_unsigned(unsigned long n);
void put_hex(unsigned long n);
void put_wide(long n, int width);
int get_line(char *s, int size);
int get_long(long *n);

#include "numbers.c"

#endif
