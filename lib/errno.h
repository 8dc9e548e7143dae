#ifndef DESK_ERRNO_H
#define DESK_ERRNO_H

#define EINVAL 22
#define EDOM 33
#define ERANGE 34

int errno;

#endif
