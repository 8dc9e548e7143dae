/* Structs with pointers in memory that is copied and grows. */
#include <stdlib.h>
#include <string.h>
#include <stdio.h>

typedef struct { char *name; int age; } person;

int main(void)
{
    person *people = NULL, copy[2];
    int count = 0, total = 0;
    static const char *names[] = { "ada", "bob", "eve" };

    for (int k = 0; k < 3; k++) {
        people = realloc(people, (count + 1) * sizeof *people);
        people[count++] = (person){ .age = 20 + k, .name = strcpy(malloc(8), names[k]) };
    }
    memcpy(copy, people + 1, sizeof copy);
    memmove(people + 1, people, 2 * sizeof *people);
    for (int k = 0; k < count; k++)
        puts(people[k].name), total += people[k].age;
    puts(copy[1].name);
    return total;
}
