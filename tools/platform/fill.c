/* C's functions to copy and to fill memory, for an Apple library that runs without Apple's system: tools/platform-test links the proved code with these.
 * Compiled with -fno-builtin, so that none becomes a call of itself. */
typedef unsigned long size;
void *memset(void *at, int byte, size count);
void *memcpy(void *restrict to, const void *restrict from, size count);
void *memmove(void *to, const void *from, size count);
int memcmp(const void *a, const void *b, size count);
void bzero(void *at, size count);
void __bzero(void *at, size count);

void *memset(void *at, int byte, size count) {
    unsigned char *p = at;
    while (count-- > 0) {
        *p++ = (unsigned char)byte;
    }
    return at;
}

void *memcpy(void *restrict to, const void *restrict from, size count) {
    unsigned char *p = to;
    const unsigned char *q = from;
    while (count-- > 0) {
        *p++ = *q++;
    }
    return to;
}

void *memmove(void *to, const void *from, size count) {
    unsigned char *p = to;
    const unsigned char *q = from;
    if (p < q) {
        return memcpy(to, from, count);
    }
    while (count-- > 0) {
        p[count] = q[count];
    }
    return to;
}

int memcmp(const void *a, const void *b, size count) {
    const unsigned char *p = a, *q = b;
    for (; count > 0; count--, p++, q++) {
        if (*p != *q) {
            return *p < *q ? -1 : 1;
        }
    }
    return 0;
}

void bzero(void *at, size count) {
    memset(at, 0, count);
}

void __bzero(void *at, size count) {
    memset(at, 0, count);
}
