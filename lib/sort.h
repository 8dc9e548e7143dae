/* Sorts in place of qsort, whose comparison is a pointer to a function. Plain C for other compilers too. */
#ifndef DESK_SORT_H
#define DESK_SORT_H

#include <stddef.h>

void sort_longs(long *words, size_t count);
void sort_texts(char **texts, size_t count);

#include "sort.c"

#endif
