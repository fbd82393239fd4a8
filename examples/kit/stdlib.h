/* The kit's compiler has no headers of its own: see examples/build. */
#ifndef KIT_STDLIB_H
#define KIT_STDLIB_H

#include <stddef.h>

_Noreturn void exit(int status);

#endif
