#ifndef DESK_STDBOOL_H
#define DESK_STDBOOL_H

/* tools/into_profile turns _Bool; the profile itself has none. */
#define bool _Bool
#define true 1
#define false 0
#define __bool_true_false_are_defined 1

#endif
