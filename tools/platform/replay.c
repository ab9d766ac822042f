/* Asks an archive of the proved library what vectors.rs wrote, and compares every answer and every lent byte.
 *
 * Each call is made as a careless app could make it at worst, so that what goes wrong ends the program:
 *   - on a thread that has 32 KiB of stack left above a page that may not be touched;
 *   - with every lent piece of memory at the end of a page behind which nothing may be touched;
 *   - with memory that the function only reads locked against writing.
 * The stack is painted before each call; the deepest byte that lost its paint tells the stack used. */
#define _GNU_SOURCE
#include "seg2.h"

#include <alloca.h>
#include <pthread.h>
#include <stdio.h>
#include <stdlib.h>
#include <string.h>
#include <sys/mman.h>
#include <unistd.h>

_Static_assert(sizeof(size_t) == 8 && sizeof(double) == 8, "64-bit sizes and doubles");
/* As C lays the answers out on x86-64, for which the library was proved: the same offsets here. */
_Static_assert(sizeof(seg2_verdict) == 16 && offsetof(seg2_verdict, place) == 8, "verdict");
_Static_assert(sizeof(seg2_file) == 56 && offsetof(seg2_file, pointer_room) == 24, "file");
_Static_assert(sizeof(seg2_trace) == 56 && offsetof(seg2_trace, format_code) == 48, "trace");
_Static_assert(sizeof(seg2_count) == 24, "count");
_Static_assert(sizeof(struct seg2_string) == 56 && offsetof(struct seg2_string, key_start) == 24, "string");
_Static_assert(sizeof(struct seg2_keyword) == 24, "keyword");
_Static_assert(sizeof(struct seg2_value) == 32, "value");
_Static_assert(sizeof(struct seg2_number) == 40 && offsetof(struct seg2_number, coefficient) == 24 && offsetof(struct seg2_number, decimals) == 32, "number");
_Static_assert(sizeof(struct seg2_double) == 24, "double");
_Static_assert(sizeof(struct seg2_location) == 64 && offsetof(struct seg2_location, x) == 24 && offsetof(struct seg2_location, x_decimals) == 48, "location");
_Static_assert(sizeof(seg2_length) == 24, "length");
/* The strict verdict is the last of a lenient answer, and nothing stands between the two. */
#define LENIENT_AS(name) \
    (sizeof(struct seg2_lenient_##name) == sizeof(struct seg2_##name) + 16 && offsetof(struct seg2_lenient_##name, strict) == sizeof(struct seg2_##name))
_Static_assert(LENIENT_AS(verdict) && LENIENT_AS(file) && LENIENT_AS(trace) && LENIENT_AS(count) && LENIENT_AS(string), "lenient");
_Static_assert(LENIENT_AS(keyword) && LENIENT_AS(value) && LENIENT_AS(number) && LENIENT_AS(double) && LENIENT_AS(location), "lenient");

enum { STACK = 32768, ROOM = 1 << 20, FIELDS = 7 };

/* The functions by the numbers that vectors.rs gives them; NEW_BUFFER is none, but tells the buffer of the vectors behind it. */
enum {
    NEW_BUFFER,
    CHECK,
    FILE_BLOCK,
    TRACE_BLOCK,
    STRING_COUNT,
    STRING,
    STRINGS,
    KEYWORD,
    VALUE,
    NUMBER,
    DOUBLE,
    LOCATION,
    INTEGERS,
    BITS,
    QUICK_TRACE_BLOCK, /* the quick forms, in the order of those above from TRACE_BLOCK on */
    QUICK_STRING_COUNT,
    QUICK_STRING,
    QUICK_STRINGS,
    QUICK_KEYWORD,
    QUICK_VALUE,
    QUICK_NUMBER,
    QUICK_DOUBLE,
    QUICK_LOCATION,
    QUICK_INTEGERS,
    QUICK_BITS,
    LENIENT_CHECK, /* the lenient forms, in the order of those from CHECK on */
    LENIENT_FILE_BLOCK,
    LENIENT_TRACE_BLOCK,
    LENIENT_STRING_COUNT,
    LENIENT_STRING,
    LENIENT_STRINGS,
    LENIENT_KEYWORD,
    LENIENT_VALUE,
    LENIENT_NUMBER,
    LENIENT_DOUBLE,
    LENIENT_LOCATION,
    LENIENT_INTEGERS,
    LENIENT_BITS,
    READ_NUMBER,
    START_SIZE,
    ADD_SIZE,
    START,
    ADD_INTEGERS,
    ADD_BITS,
    WRITE_NUMBER,
    FUNCTIONS
};

static const struct {
    const char *name;
    size_t answer; /* the size of its answer */
} functions[FUNCTIONS] = {
    [CHECK] = {"seg2_check", sizeof(seg2_verdict)},
    [FILE_BLOCK] = {"seg2_file_block", sizeof(seg2_file)},
    [TRACE_BLOCK] = {"seg2_trace_block", sizeof(seg2_trace)},
    [STRING_COUNT] = {"seg2_string_count", sizeof(seg2_count)},
    [STRING] = {"seg2_string", sizeof(struct seg2_string)},
    [STRINGS] = {"seg2_strings", sizeof(seg2_verdict)},
    [KEYWORD] = {"seg2_keyword", sizeof(struct seg2_keyword)},
    [VALUE] = {"seg2_value", sizeof(struct seg2_value)},
    [NUMBER] = {"seg2_number", sizeof(struct seg2_number)},
    [DOUBLE] = {"seg2_double", sizeof(struct seg2_double)},
    [LOCATION] = {"seg2_location", sizeof(struct seg2_location)},
    [INTEGERS] = {"seg2_integers", sizeof(seg2_verdict)},
    [BITS] = {"seg2_bits", sizeof(seg2_verdict)},
    [QUICK_TRACE_BLOCK] = {"seg2_quick_trace_block", sizeof(seg2_trace)},
    [QUICK_STRING_COUNT] = {"seg2_quick_string_count", sizeof(seg2_count)},
    [QUICK_STRING] = {"seg2_quick_string", sizeof(struct seg2_string)},
    [QUICK_STRINGS] = {"seg2_quick_strings", sizeof(seg2_verdict)},
    [QUICK_KEYWORD] = {"seg2_quick_keyword", sizeof(struct seg2_keyword)},
    [QUICK_VALUE] = {"seg2_quick_value", sizeof(struct seg2_value)},
    [QUICK_NUMBER] = {"seg2_quick_number", sizeof(struct seg2_number)},
    [QUICK_DOUBLE] = {"seg2_quick_double", sizeof(struct seg2_double)},
    [QUICK_LOCATION] = {"seg2_quick_location", sizeof(struct seg2_location)},
    [QUICK_INTEGERS] = {"seg2_quick_integers", sizeof(seg2_verdict)},
    [QUICK_BITS] = {"seg2_quick_bits", sizeof(seg2_verdict)},
    [LENIENT_CHECK] = {"seg2_lenient_check", sizeof(seg2_lenient_verdict)},
    [LENIENT_FILE_BLOCK] = {"seg2_lenient_file_block", sizeof(seg2_lenient_file)},
    [LENIENT_TRACE_BLOCK] = {"seg2_lenient_trace_block", sizeof(seg2_lenient_trace)},
    [LENIENT_STRING_COUNT] = {"seg2_lenient_string_count", sizeof(seg2_lenient_count)},
    [LENIENT_STRING] = {"seg2_lenient_string", sizeof(struct seg2_lenient_string)},
    [LENIENT_STRINGS] = {"seg2_lenient_strings", sizeof(seg2_lenient_verdict)},
    [LENIENT_KEYWORD] = {"seg2_lenient_keyword", sizeof(struct seg2_lenient_keyword)},
    [LENIENT_VALUE] = {"seg2_lenient_value", sizeof(struct seg2_lenient_value)},
    [LENIENT_NUMBER] = {"seg2_lenient_number", sizeof(struct seg2_lenient_number)},
    [LENIENT_DOUBLE] = {"seg2_lenient_double", sizeof(struct seg2_lenient_double)},
    [LENIENT_LOCATION] = {"seg2_lenient_location", sizeof(struct seg2_lenient_location)},
    [LENIENT_INTEGERS] = {"seg2_lenient_integers", sizeof(seg2_lenient_verdict)},
    [LENIENT_BITS] = {"seg2_lenient_bits", sizeof(seg2_lenient_verdict)},
    [READ_NUMBER] = {"seg2_read_number", sizeof(struct seg2_number)},
    [START_SIZE] = {"seg2_start_size", sizeof(seg2_length)},
    [ADD_SIZE] = {"seg2_add_size", sizeof(seg2_length)},
    [START] = {"seg2_start", sizeof(seg2_length)},
    [ADD_INTEGERS] = {"seg2_add_integers", sizeof(seg2_length)},
    [ADD_BITS] = {"seg2_add_bits", sizeof(seg2_length)},
    [WRITE_NUMBER] = {"seg2_write_number", sizeof(seg2_length)},
};

/* These write the buffer; of a number it is the room for its text. */
static int is_writer(uint64_t function) {
    return function >= START;
}

static int is_lenient(uint64_t function) {
    return function >= LENIENT_CHECK && function <= LENIENT_BITS;
}

/* The question of the whole file beside a quick or a lenient one, which has the same arguments and whose answer begins with the same; every other
 * function is its own. */
static uint64_t full_of(uint64_t function) {
    if (is_lenient(function)) {
        return function - LENIENT_CHECK + CHECK;
    }
    return function >= QUICK_TRACE_BLOCK && function <= QUICK_BITS ? function - QUICK_TRACE_BLOCK + TRACE_BLOCK : function;
}

/* These fill rows. */
static int fills(uint64_t function) {
    return full_of(function) == STRINGS || full_of(function) == INTEGERS || full_of(function) == BITS;
}

/* An element of a row, read or written. */
static size_t width_of(uint64_t function) {
    return full_of(function) == INTEGERS || function == ADD_INTEGERS ? 4 : 8;
}

static void stop(const char *why) {
    fprintf(stderr, "replay: %s\n", why);
    exit(2);
}

/* ---- the vectors */

static uint64_t number(void) {
    uint8_t b[8];
    uint64_t value = 0;
    int i;
    if (fread(b, 1, sizeof b, stdin) != sizeof b) {
        stop("the vectors end too early");
    }
    for (i = 7; i >= 0; i--) {
        value = value << 8 | b[i];
    }
    return value;
}

/* Bytes as the vectors have them; the caller's own copy, to be freed. */
typedef struct bytes {
    uint8_t *at;
    size_t size;
} bytes;

static bytes some_bytes(void) {
    bytes b;
    b.size = number();
    if (b.size > ROOM || (b.at = malloc(b.size + 1)) == NULL) {
        stop("a vector is too large");
    }
    if (fread(b.at, 1, b.size, stdin) != b.size) {
        stop("the vectors end too early");
    }
    return b;
}

/* ---- memory to lend */

/* A room ends where nothing may be touched. */
enum { BUFFER, TEXT, ROW, CLASSES, ANSWER, ROOMS };
static uint8_t *rooms[ROOMS];

static uint8_t *mapped(size_t size) {
    uint8_t *at = mmap(NULL, size, PROT_READ | PROT_WRITE, MAP_PRIVATE | MAP_ANONYMOUS, -1, 0);
    if (at == MAP_FAILED) {
        stop("no memory");
    }
    return at;
}

static void locked(void *at, size_t size, int how) {
    if (mprotect(at, size, how) != 0) {
        stop("memory cannot be locked");
    }
}

static int read_only[ROOMS];

/* A room is mostly as it was; to ask the system each time takes longer than the calls. */
static void only_read(int room, int only) {
    if (read_only[room] != only) {
        locked(rooms[room], ROOM, only ? PROT_READ : PROT_READ | PROT_WRITE);
        read_only[room] = only;
    }
}

static uint8_t *end_of(int room, size_t size) {
    only_read(room, 0);
    return rooms[room] + ROOM - size;
}

static uint8_t *lend(int room, bytes b) {
    uint8_t *at = end_of(room, b.size);
    memcpy(at, b.at, b.size);
    return at;
}

/* ---- a call on a small stack */

typedef struct call {
    uint64_t function;
    uint8_t *buffer;
    size_t size;
    size_t length;
    int32_t part;
    size_t index; /* or how many samples */
    uint8_t *text;
    size_t text_size;
    uint32_t code; /* or the byte order */
    uint32_t slots;
    uint32_t minus, decimals;
    int32_t power;
    uint64_t coefficient;
    void *row;
    size_t row_size;
    uint8_t *classes;
    size_t classes_size;
    void *answer;
} call;

__attribute__((noinline)) static void perform(call *c) {
    switch (c->function) {
    case CHECK: *(seg2_verdict *)c->answer = seg2_check(c->buffer, c->size, c->length); break;
    case FILE_BLOCK: seg2_file_block(c->answer, c->buffer, c->size, c->length); break;
    case TRACE_BLOCK: seg2_trace_block(c->answer, c->buffer, c->size, c->length, c->part); break;
    case STRING_COUNT: seg2_string_count(c->answer, c->buffer, c->size, c->length, c->part); break;
    case STRING: seg2_string(c->answer, c->buffer, c->size, c->length, c->part, c->index); break;
    case STRINGS: *(seg2_verdict *)c->answer = seg2_strings(c->buffer, c->size, c->length, c->part, c->row, c->row_size); break;
    case KEYWORD: seg2_keyword(c->answer, c->buffer, c->size, c->length, c->part, c->text, c->text_size); break;
    case VALUE: seg2_value(c->answer, c->buffer, c->size, c->length, c->part, c->text, c->text_size); break;
    case NUMBER: seg2_number(c->answer, c->buffer, c->size, c->length, c->part, c->text, c->text_size); break;
    case DOUBLE: seg2_double(c->answer, c->buffer, c->size, c->length, c->part, c->text, c->text_size); break;
    case LOCATION: seg2_location(c->answer, c->buffer, c->size, c->length, c->part, c->text, c->text_size); break;
    case INTEGERS: *(seg2_verdict *)c->answer = seg2_integers(c->buffer, c->size, c->length, c->part, c->row, c->row_size); break;
    case BITS:
        *(seg2_verdict *)c->answer =
            seg2_bits(c->buffer, c->size, c->length, c->part, c->row, c->row_size, c->classes, c->classes_size);
        break;
    case QUICK_TRACE_BLOCK: seg2_quick_trace_block(c->answer, c->buffer, c->size, c->length, c->part); break;
    case QUICK_STRING_COUNT: seg2_quick_string_count(c->answer, c->buffer, c->size, c->length, c->part); break;
    case QUICK_STRING: seg2_quick_string(c->answer, c->buffer, c->size, c->length, c->part, c->index); break;
    case QUICK_STRINGS: *(seg2_verdict *)c->answer = seg2_quick_strings(c->buffer, c->size, c->length, c->part, c->row, c->row_size); break;
    case QUICK_KEYWORD: seg2_quick_keyword(c->answer, c->buffer, c->size, c->length, c->part, c->text, c->text_size); break;
    case QUICK_VALUE: seg2_quick_value(c->answer, c->buffer, c->size, c->length, c->part, c->text, c->text_size); break;
    case QUICK_NUMBER: seg2_quick_number(c->answer, c->buffer, c->size, c->length, c->part, c->text, c->text_size); break;
    case QUICK_DOUBLE: seg2_quick_double(c->answer, c->buffer, c->size, c->length, c->part, c->text, c->text_size); break;
    case QUICK_LOCATION: seg2_quick_location(c->answer, c->buffer, c->size, c->length, c->part, c->text, c->text_size); break;
    case QUICK_INTEGERS: *(seg2_verdict *)c->answer = seg2_quick_integers(c->buffer, c->size, c->length, c->part, c->row, c->row_size); break;
    case QUICK_BITS:
        *(seg2_verdict *)c->answer =
            seg2_quick_bits(c->buffer, c->size, c->length, c->part, c->row, c->row_size, c->classes, c->classes_size);
        break;
    case LENIENT_CHECK: seg2_lenient_check(c->answer, c->buffer, c->size, c->length); break;
    case LENIENT_FILE_BLOCK: seg2_lenient_file_block(c->answer, c->buffer, c->size, c->length); break;
    case LENIENT_TRACE_BLOCK: seg2_lenient_trace_block(c->answer, c->buffer, c->size, c->length, c->part); break;
    case LENIENT_STRING_COUNT: seg2_lenient_string_count(c->answer, c->buffer, c->size, c->length, c->part); break;
    case LENIENT_STRING: seg2_lenient_string(c->answer, c->buffer, c->size, c->length, c->part, c->index); break;
    case LENIENT_STRINGS: seg2_lenient_strings(c->answer, c->buffer, c->size, c->length, c->part, c->row, c->row_size); break;
    case LENIENT_KEYWORD: seg2_lenient_keyword(c->answer, c->buffer, c->size, c->length, c->part, c->text, c->text_size); break;
    case LENIENT_VALUE: seg2_lenient_value(c->answer, c->buffer, c->size, c->length, c->part, c->text, c->text_size); break;
    case LENIENT_NUMBER: seg2_lenient_number(c->answer, c->buffer, c->size, c->length, c->part, c->text, c->text_size); break;
    case LENIENT_DOUBLE: seg2_lenient_double(c->answer, c->buffer, c->size, c->length, c->part, c->text, c->text_size); break;
    case LENIENT_LOCATION: seg2_lenient_location(c->answer, c->buffer, c->size, c->length, c->part, c->text, c->text_size); break;
    case LENIENT_INTEGERS: seg2_lenient_integers(c->answer, c->buffer, c->size, c->length, c->part, c->row, c->row_size); break;
    case LENIENT_BITS:
        seg2_lenient_bits(c->answer, c->buffer, c->size, c->length, c->part, c->row, c->row_size, c->classes, c->classes_size);
        break;
    case READ_NUMBER: seg2_read_number(c->answer, c->text, c->text_size); break;
    case START_SIZE: seg2_start_size(c->answer, c->code, c->slots, c->text, c->text_size); break;
    case ADD_SIZE: seg2_add_size(c->answer, c->buffer, c->size, c->length, c->text, c->text_size, c->code, c->index); break;
    case START: seg2_start(c->answer, c->buffer, c->size, c->code, c->slots, c->text, c->text_size); break;
    case ADD_INTEGERS: seg2_add_integers(c->answer, c->buffer, c->size, c->length, c->text, c->text_size, c->code, c->row, c->row_size); break;
    case ADD_BITS: seg2_add_bits(c->answer, c->buffer, c->size, c->length, c->text, c->text_size, c->code, c->row, c->row_size); break;
    case WRITE_NUMBER: seg2_write_number(c->answer, c->buffer, c->size, c->minus, c->coefficient, c->power, c->decimals); break;
    default: abort();
    }
}

/* A C library asks for a larger stack than 32 KiB, for itself: the thread that asks stands above, and goes down through what is more than that before it
 * calls. It makes all calls, as an emulator keeps what each thread had. */
enum { ABOVE = 256 * 1024 };
static uint8_t *stack; /* STACK bytes for the call, then ABOVE bytes for the thread */

__attribute__((noinline)) static void far_down(call *c) {
    uint8_t *here = __builtin_frame_address(0);
    /* alloca keeps 16 bytes' alignment and may give a few bytes more, so the call has a little less than STACK, never more */
    void *gone = alloca((size_t)(here - (stack + STACK)));
    __asm__ volatile("" : : "r"(gone) : "memory"); /* so that it is not left out */
    perform(c);
    __asm__ volatile("" : : "r"(gone) : "memory");
}

/* The bytes of stack that the call used; every byte below them still has its paint. */
static size_t called(call *c) {
    static uint8_t *lowest;
    const uint64_t paint = 0xA5A5A5A5A5A5A5A5u;
    if (lowest == NULL) {
        lowest = stack;
    }
    memset(lowest, 0xA5, (size_t)(stack + STACK - lowest));
    far_down(c);
    for (lowest = stack; lowest < stack + STACK && memcmp(lowest, &paint, sizeof paint) == 0; lowest += sizeof paint) {
    }
    return (size_t)(stack + STACK - lowest);
}

/* ---- answers */

/* An answer's fields behind the refusal, as the vectors have them. */
static size_t fields_of(uint64_t function, const void *answer, uint64_t *f) {
    switch (full_of(function)) {
    case FILE_BLOCK: {
        const seg2_file *a = answer;
        f[0] = a->order, f[1] = a->pointer_room, f[2] = a->trace_count, f[3] = a->string_terminator_size, f[4] = a->line_terminator_size;
        return 5;
    }
    case TRACE_BLOCK: {
        const seg2_trace *a = answer;
        f[0] = a->start, f[1] = a->block_size, f[2] = a->data_size, f[3] = a->sample_count, f[4] = a->format_code;
        return 5;
    }
    case STRING_COUNT: f[0] = ((const seg2_count *)answer)->count; return 1;
    case STRING: {
        const struct seg2_string *a = answer;
        f[0] = a->found, f[1] = a->key_start, f[2] = a->key_length, f[3] = a->value_start, f[4] = a->value_length;
        return 5;
    }
    case KEYWORD: f[0] = ((const struct seg2_keyword *)answer)->found; return 1;
    case VALUE: f[0] = ((const struct seg2_value *)answer)->value_start, f[1] = ((const struct seg2_value *)answer)->value_length; return 2;
    case NUMBER:
    case READ_NUMBER: {
        const struct seg2_number *a = answer;
        f[0] = a->minus, f[1] = (uint64_t)(int64_t)a->power, f[2] = a->coefficient, f[3] = a->decimals;
        return 4;
    }
    case DOUBLE: memcpy(f, &((const struct seg2_double *)answer)->value, 8); return 1;
    case LOCATION: {
        const struct seg2_location *a = answer;
        f[0] = a->count, memcpy(f + 1, &a->x, 8), memcpy(f + 2, &a->y, 8), memcpy(f + 3, &a->z, 8);
        f[4] = a->x_decimals, f[5] = a->y_decimals, f[6] = a->z_decimals;
        return 7;
    }
    case START_SIZE:
    case ADD_SIZE:
    case START:
    case ADD_INTEGERS:
    case ADD_BITS:
    case WRITE_NUMBER: f[0] = ((const seg2_length *)answer)->length; return 1;
    default: return 0;
    }
}

/* ---- one vector */

/* The samples that an addition is given. They are only read. */
static void lend_row(call *c) {
    size_t width = width_of(c->function), i;
    c->row_size = number();
    if (c->row_size > ROOM / 8) {
        stop("a row is too large");
    }
    c->row = end_of(ROW, c->row_size * width);
    for (i = 0; i < c->row_size; i++) {
        uint64_t value = number();
        if (width == 4) {
            ((int32_t *)c->row)[i] = (int32_t)(int64_t)value;
        } else {
            ((uint64_t *)c->row)[i] = value;
        }
    }
    only_read(ROW, 1);
}

/* The rows that samples or the places of strings are read into, painted. */
static void lend_painted_rows(call *c) {
    size_t width = width_of(c->function);
    c->row_size = number();
    c->classes_size = full_of(c->function) == BITS ? number() : 0;
    if (c->row_size > ROOM / 8 || c->classes_size > ROOM) {
        stop("a row is too large");
    }
    c->row = end_of(ROW, c->row_size * width);
    memset(c->row, 0x5A, c->row_size * width);
    c->classes = end_of(CLASSES, c->classes_size);
    memset(c->classes, 0x5A, c->classes_size);
}

/* Reads the question of a vector and lends what it names. */
static call question(uint64_t function, bytes buffer, size_t length) {
    call c = {0};
    bytes text;
    c.function = function;
    c.buffer = lend(BUFFER, buffer), c.size = buffer.size, c.length = length;
    if (!is_writer(function)) {
        only_read(BUFFER, 1);
    }
    c.part = (int32_t)(int64_t)number();
    c.index = number();
    text = some_bytes();
    c.text = lend(TEXT, text), c.text_size = text.size;
    only_read(TEXT, 1);
    free(text.at);
    switch (function) {
    case START_SIZE:
    case START: c.code = (uint32_t)number(), c.slots = (uint32_t)number(); break;
    case ADD_SIZE: c.code = (uint32_t)number(); break;
    case ADD_INTEGERS:
    case ADD_BITS: c.code = (uint32_t)number(), lend_row(&c); break;
    case WRITE_NUMBER:
        c.minus = (uint32_t)number(), c.coefficient = number(), c.power = (int32_t)(int64_t)number(), c.decimals = (uint32_t)number();
        break;
    default: break;
    }
    if (fills(function)) {
        lend_painted_rows(&c);
    }
    c.answer = end_of(ANSWER, functions[function].answer);
    memset(c.answer, 0xEE, functions[function].answer);
    return c;
}

/* Integers are 32 bits wide, so of a painted row only these are there. */
static int same_row(const call *c) {
    size_t i;
    int same = 1;
    if (number() != c->row_size) {
        stop("another row");
    }
    for (i = 0; i < c->row_size; i++) {
        uint64_t wanted = number();
        same &= width_of(c->function) == 4 ? ((uint32_t *)c->row)[i] == (uint32_t)wanted : ((uint64_t *)c->row)[i] == wanted;
    }
    return same;
}

static int same_bytes(const uint8_t *at, size_t size) {
    bytes wanted = some_bytes();
    int same = wanted.size == size && memcmp(wanted.at, at, size) == 0;
    free(wanted.at);
    return same;
}

/* Reads a verdict, number, part and place, and says whether it is this one. `wanted` gets it. */
static int same_verdict(const seg2_verdict *is, uint64_t wanted[3]) {
    int i;
    for (i = 0; i < 3; i++) {
        wanted[i] = number();
    }
    return is->number == wanted[0] && (uint64_t)(int64_t)is->part == wanted[1] && is->place == wanted[2];
}

/* The strict verdict, which ends a lenient answer. */
static const seg2_verdict *strict_of(const call *c) {
    return (const seg2_verdict *)((const uint8_t *)c->answer + functions[c->function].answer) - 1;
}

/* Reads the answer of a vector to its end, and says whether it is what came back. `refusal` gets the number, part and place that it has. */
static int as_wanted(const call *c, uint64_t refusal[3]) {
    uint64_t fields[FIELDS], strict[3], count, i;
    int same = same_verdict(c->answer, refusal); /* every answer begins as a verdict does */
    count = number();
    if (count != fields_of(c->function, c->answer, fields)) {
        stop("another number of fields");
    }
    for (i = 0; i < count; i++) {
        same &= number() == fields[i];
    }
    if (is_lenient(c->function)) {
        same &= same_verdict(strict_of(c), strict);
    }
    if (fills(c->function)) {
        same &= same_row(c);
    }
    if (full_of(c->function) == BITS) {
        same &= same_bytes(c->classes, c->classes_size);
    }
    if (is_writer(c->function)) {
        same &= same_bytes(c->buffer, c->size);
    }
    return same;
}

/* ---- all vectors */

static void prepare(void) {
    size_t page = (size_t)sysconf(_SC_PAGESIZE);
    int i;
    for (i = 0; i < ROOMS; i++) {
        rooms[i] = mapped(ROOM + page);
        locked(rooms[i] + ROOM, page, PROT_NONE);
    }
    stack = mapped(page + STACK + ABOVE);
    locked(stack, page, PROT_NONE);
    stack += page;
}

static void *all_vectors(void *nothing) {
    size_t depth[FUNCTIONS] = {0}, deepest = 0, length = 0;
    uint64_t asked[FUNCTIONS] = {0}, vectors = 0, wrong = 0, function;
    bytes buffer = {NULL, 0};
    int i;
    while ((function = number()) != UINT64_MAX) {
        call c;
        uint64_t refusal[3];
        size_t used;
        if (function == NEW_BUFFER) {
            free(buffer.at);
            buffer = some_bytes();
            length = number();
            continue;
        }
        if (function >= FUNCTIONS || buffer.at == NULL) {
            stop("no such function");
        }
        c = question(function, buffer, length);
        used = called(&c);
        if (!as_wanted(&c, refusal) && ++wrong <= 10) {
            const seg2_verdict *is = c.answer;
            printf("vector %llu: %s answers %u %d %zu, wanted %llu %lld %llu\n", (unsigned long long)vectors, functions[function].name,
                   (unsigned)is->number, (int)is->part, is->place, (unsigned long long)refusal[0], (long long)refusal[1],
                   (unsigned long long)refusal[2]);
        }
        vectors++;
        asked[function]++;
        depth[function] = used > depth[function] ? used : depth[function];
        deepest = used > deepest ? used : deepest;
    }
    if (number() != vectors) {
        stop("vectors are missing");
    }
    for (i = CHECK; i < FUNCTIONS; i++) {
        printf("%-25s %6llu calls, %5zu bytes of stack\n", functions[i].name, (unsigned long long)asked[i], depth[i]);
        wrong += asked[i] == 0 || depth[i] == 0; /* every call uses some, or it was not measured */
    }
    printf("%llu vectors, %llu wrong, %zu of %d bytes of stack used\n", (unsigned long long)vectors, (unsigned long long)wrong, deepest, (int)STACK);
    exit(wrong != 0);
    return nothing;
}

int main(void) {
    pthread_attr_t small;
    pthread_t thread;
    prepare();
    if (pthread_attr_init(&small) != 0 || pthread_attr_setstack(&small, stack, STACK + ABOVE) != 0 ||
        pthread_create(&thread, &small, all_vectors, NULL) != 0) {
        stop("no thread with a small stack");
    }
    pthread_join(thread, NULL);
    return 2;
}
