/* What seg2_jni.c needs of C, for libseg2jni.so without Android's own headers (tools/bundle). */
#ifndef STRING_H
#define STRING_H
#include <stddef.h>
void *memset(void *at, int byte, size_t count);
void *memcpy(void *restrict to, const void *restrict from, size_t count);
void *memmove(void *to, const void *from, size_t count);
int memcmp(const void *a, const void *b, size_t count);
#endif
