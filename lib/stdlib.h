/* Memory, numbers and the end of a program. The functions stand in stdlib.c. Memory comes out of one arena of ARENA_BYTES,
   which may be defined before the header is read. */
#ifndef DESK_STDLIB_H
#define DESK_STDLIB_H

#include <stddef.h>

#define EXIT_SUCCESS 0
#define EXIT_FAILURE 1
#define RAND_MAX 32767

#ifndef ARENA_BYTES
#define ARENA_BYTES 1048576
#endif

void abort(void);
void exit(int status);
int abs(int n);
long labs(long n);
long llabs(long n);
int atoi(const char *s);
long atol(const char *s);
long atoll(const char *s);
long strtol(const char *s, char **end, int base);
long strtoll(const char *s, char **end, int base);
unsigned long strtoul(const char *s, char **end, int base);
unsigned long strtoull(const char *s, char **end, int base);
int rand(void);
void srand(unsigned seed);
void *malloc(size_t n);
void *calloc(size_t count, size_t size);
void *realloc(void *p, size_t n);
void free(void *p);

#include "stdlib.c"

#endif
