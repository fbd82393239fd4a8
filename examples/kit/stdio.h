/* The kit's compiler has no headers of its own: see examples/build. */
#ifndef KIT_STDIO_H
#define KIT_STDIO_H

#include <stddef.h>

typedef struct _IO_FILE FILE;
extern FILE *stdin, *stdout, *stderr;

int printf(const char *format, ...);
int fprintf(FILE *stream, const char *format, ...);
int fflush(FILE *stream);
size_t fread(void *items, size_t size, size_t count, FILE *stream);
size_t fwrite(const void *items, size_t size, size_t count, FILE *stream);

#endif
