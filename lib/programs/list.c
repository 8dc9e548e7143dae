// A linked list of numbers in order: reads commands `+n`, `-n` and `?`, which write the list.
#include <stdio.h>
#include <stdlib.h>
#include <stddef.h>
#include <assert.h>

#include "numbers.h"

typedef struct node {
    long value;
    struct node *next;
} node_t;

typedef struct {
    node_t *head;
    size_t length;
} list_t;

static node_t *node_new(long value, node_t *next)
{
    node_t *node = malloc(sizeof(*node));

    assert(node != NULL);
    *node = (node_t){ .next = next, .value = value };
    return node;
}

static node_t **place_of(list_t *list, long value)
{
    node_t **place;

    for (place = &list->head; *place && (*place)->value < value; place = &(*place)->next)
        ;
    return place;
}

static void list_add(list_t *list, long value)
{
    node_t **place = place_of(list, value);

    *place = node_new(value, *place);
    list->length++;
}

static int list_remove(list_t *list, long value)
{
    node_t **place = place_of(list, value), *node = *place;

    if (!node || node->value != value)
        return 0;
    *place = node->next;
    free(node);
    list->length--;
    return 1;
}

static void list_reverse(list_t *list)
{
    node_t *reversed = NULL;

    while (list->head) {
        node_t *node = list->head;
        list->head = node->next;
        node->next = reversed, reversed = node;
    }
    list->head = reversed;
}

static void list_write(const list_t *list)
{
    put_unsigned(list->length);
    putchar(':');
    for (const node_t *node = list->head; node; node = node->next) {
        putchar(' ');
        put_long(node->value);
    }
    putchar('\n');
}

int main(void)
{
    list_t list = { 0 };
    int missing = 0, c;

    while ((c = getchar()) != EOF) {
        long value;
        switch (c) {
        case '+':
            if (get_long(&value))
                list_add(&list, value);
            break;
        case '-':
            if (get_long(&value) && !list_remove(&list, value))
                missing++;
            break;
        case '?':
            list_write(&list);
            break;
        case 'r':
            list_reverse(&list);
            list_write(&list);
            list_reverse(&list);
        default:
            break;
        }
    }
    return missing;
}
