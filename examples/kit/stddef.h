/* The kit's compiler has no headers of its own: see examples/build. */
#ifndef KIT_STDDEF_H
#define KIT_STDDEF_H

typedef __SIZE_TYPE__ size_t;
#define NULL ((void *)0)

#endif
