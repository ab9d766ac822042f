/* SEG-2 shot files, read and written by a proved library.
 *
 * Every function answers for all bytes and all numbers: there is no input that it may
 * not be given, and none on which it crashes, hangs or reads past what it was lent. Each
 * is proved to answer as its comment says (crates/seg2). The rules and their numbers are
 * those of the refusal table, which enum seg2_refusal repeats.
 *
 * What a host owes, for the time of the call:
 *   - a pointer is not null, also where the size beside it is 0 (any address will do then);
 *   - it leads to as many elements as the size beside it says: bytes, or elements of a row;
 *   - a row of int32_t, uint64_t or size_t, or an answer, is aligned as its type asks;
 *   - memory that the function writes overlaps nothing else that it is lent, and nobody
 *     else reads or writes it; memory that it reads, nobody writes;
 *   - size_t has 64 bits.
 *
 * The library keeps no pointer and no state, allocates nothing and calls nothing
 * but C's memset, so any number of threads may call it. A stack of 32 KiB is enough for every function.
 *
 * `buffer` and `size` are the lent memory, `length` says how many of its first bytes are
 * the file; any length may be given, and one over `size` is refused by 1. A `part` is -1
 * for the file itself, else a trace, counted from 0. Every question about a file checks the
 * whole file first, so its refusal may be any row from 1 to 17, or 34, before one of its own.
 * The functions with quick in their name do not: each reads one trace and judges what it reads.
 * Whoever wants much of a file asks seg2_check once and then, trace by trace, the quick ones.
 * The functions with lenient in their name read files of older recorders too, which break the
 * rules in some ways that are forgiven; the strict verdict stands beside each of their answers.
 *
 * Keywords, sheets and texts of numbers are lent as void *, so that a char * and a uint8_t * need no cast. They are ASCII,
 * and end by their size, not by a 0: SEG2_LITERAL has both for a literal. seg2_chars has the bytes of a file as a char *.
 * A trace count is at most 16,383, so that (int32_t)trace_count keeps it: a part is an int32_t, as -1 is one.
 *
 * An answer begins with the refusal: `number` 0, `part` -1 and `place` 0 where there is
 * none. After a refusal the rest of the answer is 0 and no lent byte has changed. An answer
 * of more than 16 bytes is written to `answer`, which comes first; the functions whose name
 * ends in _of return it instead. Twelve answers share their name with the function that gives
 * them, so they are written with the word struct, as in C's own `struct stat`.
 *
 * Since numbers have their own decimals (document 02, section 4), struct seg2_number and
 * struct seg2_location have counts behind their older fields. Both are longer than before:
 * a host that was compiled with an older header has to be compiled again with this one. */
#ifndef SEG2_H
#define SEG2_H

#include <stddef.h>
#include <stdint.h>

/* A system whose size_t has not 64 bits is refused here: its places and lengths are not those that the library reads. C99 has
 * no word for it, but no array of -1 elements either. */
#if defined(__cplusplus)
static_assert(sizeof(size_t) == 8, "seg2.h: size_t has 64 bits: the library is for 64-bit systems");
#elif defined(__STDC_VERSION__) && __STDC_VERSION__ >= 201112L
_Static_assert(sizeof(size_t) == 8, "seg2.h: size_t has 64 bits: the library is for 64-bit systems");
#else
typedef char seg2_size_t_has_64_bits[sizeof(size_t) == 8 ? 1 : -1];
#endif

#ifdef __cplusplus
extern "C" {
#endif

/* The version: the one place where it stands. Until 1.0 the middle number changes where a struct or a function does. */
#define SEG2_VERSION_MAJOR 0
#define SEG2_VERSION_MINOR 9
#define SEG2_VERSION_PATCH 0
#define SEG2_VERSION_TEXT_(a, b, c) #a "." #b "." #c
#define SEG2_VERSION_TEXT(a, b, c) SEG2_VERSION_TEXT_(a, b, c)
#define SEG2_VERSION SEG2_VERSION_TEXT(SEG2_VERSION_MAJOR, SEG2_VERSION_MINOR, SEG2_VERSION_PATCH)

/* A file is at most this long. */
#define SEG2_MAXIMUM_LENGTH 67108864
/* The strings of one block need at most this many bytes where we write them. */
#define SEG2_MAXIMUM_AREA 65500
/* A new file has at most this many pointer slots. */
#define SEG2_MAXIMUM_SLOTS 16383
/* The text of a number is at most this long where we write it: -1.23456789012345678E-99. */
#define SEG2_MAXIMUM_NUMBER_TEXT 24

/* A keyword, a sheet or a number's text that stands in the program, with its size beside it, for the two arguments that they
 * are: seg2_value_of(buffer, size, length, 0, SEG2_LITERAL("DELAY")). Of anything but a literal it is an error of the compiler:
 * a pointer has another size than its text. */
#define SEG2_LITERAL(text) ("" text), (sizeof("" text) - 1)

/* The refusal table, in its order of checking. Beside each row: what `place` is. seg2_text has the words. */
enum seg2_refusal {
    SEG2_ACCEPTED = 0,
    /* the check of a whole file; a place is a byte of the file */
    SEG2_LENGTH = 1,         /* 0 */
    SEG2_FIRST_BYTES = 2,    /* 0 */
    SEG2_REVISION = 3,       /* 2 */
    SEG2_POINTER_ROOM = 4,   /* 4 */
    SEG2_TRACE_COUNT = 5,    /* 6 */
    SEG2_TERMINATOR = 6,     /* 8 for the string terminator, 11 for the line terminator */
    SEG2_ROOM_END = 7,       /* 4 */
    SEG2_POINTER = 8,        /* the trace's pointer */
    SEG2_TRACE_MARK = 9,     /* the trace block */
    SEG2_BLOCK_SIZE = 10,    /* its size */
    SEG2_DATA_SIZE = 11,     /* the data's size */
    SEG2_FORMAT_CODE = 12,   /* the code */
    SEG2_SAMPLE_COUNT = 13,  /* the sample count */
    SEG2_STRING_OFFSET = 14, /* the string's offset */
    SEG2_STRING_END = 15,    /* the string's offset */
    SEG2_CHARACTER = 16,     /* the string's offset */
    SEG2_KEYWORD_ORDER = 17, /* the string's offset */
    /* questions; the part is -1 */
    SEG2_NO_TRACE = 18,      /* 0 */
    SEG2_INPUT_SIZE = 19,    /* 0; given by the listing program alone */
    SEG2_NO_NUMBER = 20,     /* a byte of the value; 0 for a text by itself and for a number to be written */
    SEG2_DIGITS = 21,        /* the same */
    SEG2_NO_DOUBLE = 22,     /* a byte of the value */
    SEG2_VALUE_COUNT = 23,   /* 0 */
    /* writing; the part is -1 */
    SEG2_NO_SLOT = 24,       /* 0 */
    SEG2_SHEET_LINE = 25,    /* a byte of the sheet */
    SEG2_SHEET_ORDER = 26,   /* a byte of the sheet */
    SEG2_AREA_SIZE = 27,     /* 0 */
    SEG2_ENTRY_CODE = 28,    /* 0 */
    SEG2_SAMPLE_RANGE = 29,  /* the sample's index */
    SEG2_NO_ROOM = 30,       /* 0 */
    SEG2_START_VALUES = 31,  /* 0 */
    /* samples; the part is -1 */
    SEG2_ROW_LENGTH = 32,    /* 0 */
    SEG2_CODE_KIND = 33,     /* 0 */
    /* channel numbers in all traces or none (document 02, section 7) */
    SEG2_CHANNEL_NUMBER = 34, /* of the check, behind 17 of its trace: where the trace's strings start, 32 bytes behind its block's start */
    SEG2_SHEET_CHANNEL = 35  /* 0; of an addition, behind 27 and before 28; the part is -1 */
};

/* Byte orders. */
enum seg2_order {
    SEG2_LOW_FIRST = 0,
    SEG2_HIGH_FIRST = 1
};

/* Format codes. Samples of codes 1 to 3 travel as integers, int32_t (those of code 3 are whole numbers too), of codes 4 and 5 as bit
 * patterns, uint64_t. */
enum seg2_code {
    SEG2_FIXED_16 = 1, /* 16-bit fixed point */
    SEG2_FIXED_32 = 2, /* 32-bit fixed point */
    SEG2_FLOAT_20 = 3, /* 20-bit floating point, four samples in ten bytes */
    SEG2_FLOAT_32 = 4, /* 32-bit floating point, IEEE 754 */
    SEG2_FLOAT_64 = 5  /* 64-bit floating point, IEEE 754 */
};

/* Classes of bit patterns. */
enum seg2_class {
    SEG2_CLASS_ZERO = 0,
    SEG2_CLASS_UNDERFLOW = 1,   /* exponent bits 0, fraction not 0 */
    SEG2_CLASS_NUMBER = 2,
    SEG2_CLASS_INFINITY = 3,
    SEG2_CLASS_NOT_A_NUMBER = 4
};

/* No value beside the refusal. */
typedef struct seg2_verdict {
    uint32_t number;
    int32_t part;
    size_t place;
} seg2_verdict;

/* The file block. The terminators' characters stand in bytes 9 and 12 on. */
typedef struct seg2_file {
    uint32_t number;
    int32_t part;
    size_t place;
    uint32_t order;                /* enum seg2_order */
    size_t pointer_room;           /* M, in bytes: 4 for each pointer slot */
    size_t trace_count;            /* N */
    size_t string_terminator_size; /* 1 or 2 */
    size_t line_terminator_size;   /* 1 or 2 */
} seg2_file;

/* A trace block. The data is `data_size` bytes from `start` + `block_size` on. */
typedef struct seg2_trace {
    uint32_t number;
    int32_t part;
    size_t place;
    size_t start;         /* the pointer */
    size_t block_size;    /* B */
    size_t data_size;     /* D */
    size_t sample_count;  /* S */
    uint32_t format_code; /* enum seg2_code */
} seg2_trace;

/* How many strings. */
typedef struct seg2_count {
    uint32_t number;
    int32_t part;
    size_t place;
    size_t count;
} seg2_count;

/* A string: where its keyword and its value stand in the buffer. */
struct seg2_string {
    uint32_t number;
    int32_t part;
    size_t place;
    uint32_t found; /* 1, or 0 where there is none */
    size_t key_start;
    size_t key_length;
    size_t value_start;
    size_t value_length;
};

/* Whether a keyword is there. */
struct seg2_keyword {
    uint32_t number;
    int32_t part;
    size_t place;
    uint32_t found; /* 1 yes, 0 no */
};

/* Where a value stands in the buffer; both 0 for a no or a refusal. */
struct seg2_value {
    uint32_t number;
    int32_t part;
    size_t place;
    size_t value_start;
    size_t value_length;
};

/* A number: coefficient as written, times ten to the power, negated where minus. Zero has no minus. `decimals` tells
 * the precision that was typed: 0.250 has 3 and 0.25 has 2, 12 has 0, 2.50E-3 has 2. */
struct seg2_number {
    uint32_t number;
    int32_t part;
    size_t place;
    uint32_t minus; /* 1 minus, 0 plus */
    int32_t power;
    uint64_t coefficient;
    uint32_t decimals; /* how many digits stood after the point */
};

/* A double. */
struct seg2_double {
    uint32_t number;
    int32_t part;
    size_t place;
    double value;
};

/* A location: one value or three, each with how many digits stood after its point; all of absent ones is 0. */
struct seg2_location {
    uint32_t number;
    int32_t part;
    size_t place;
    uint32_t count; /* 1 or 3 */
    double x;
    double y;
    double z;
    uint32_t x_decimals;
    uint32_t y_decimals;
    uint32_t z_decimals;
};

/* The length of the image after a start or an addition; of the text after a number was written. */
typedef struct seg2_length {
    uint32_t number;
    int32_t part;
    size_t place;
    size_t length;
} seg2_length;

/* The answers of the lenient reading: `answer` is the one that the question without lenient in its name has, with the lenient
 * reading's own refusal; `strict` is what seg2_check says of the same bytes, also where `answer` is a refusal. */
typedef struct seg2_lenient_verdict {
    seg2_verdict answer;
    seg2_verdict strict;
} seg2_lenient_verdict;

typedef struct seg2_lenient_file {
    seg2_file answer;
    seg2_verdict strict;
} seg2_lenient_file;

typedef struct seg2_lenient_trace {
    seg2_trace answer;
    seg2_verdict strict;
} seg2_lenient_trace;

typedef struct seg2_lenient_count {
    seg2_count answer;
    seg2_verdict strict;
} seg2_lenient_count;

struct seg2_lenient_string {
    struct seg2_string answer;
    seg2_verdict strict;
};

struct seg2_lenient_keyword {
    struct seg2_keyword answer;
    seg2_verdict strict;
};

struct seg2_lenient_value {
    struct seg2_value answer;
    seg2_verdict strict;
};

struct seg2_lenient_number {
    struct seg2_number answer;
    seg2_verdict strict;
};

struct seg2_lenient_double {
    struct seg2_double answer;
    seg2_verdict strict;
};

struct seg2_lenient_location {
    struct seg2_location answer;
    seg2_verdict strict;
};

/* ---- questions: no lent byte changes but the answer, and the rows where it says so */

/* Whether the first `length` bytes are a file that keeps the rules; if not, the first row of the table that
 * they meet, 1 to 17 or 34, with its part and place. */
seg2_verdict seg2_check(const uint8_t *buffer, size_t size, size_t length);

/* The file block: byte order, M, N and the lengths of the terminators. */
void seg2_file_block(seg2_file *answer, const uint8_t *buffer, size_t size, size_t length);

/* The block of a trace: where it starts, B, D, S and the format code. 18 where there is no such trace; -1 is none. */
void seg2_trace_block(seg2_trace *answer, const uint8_t *buffer, size_t size, size_t length, int32_t trace);

/* How many strings a part has. 18 where there is no such part. */
void seg2_string_count(seg2_count *answer, const uint8_t *buffer, size_t size, size_t length, int32_t part);

/* The string of a part with this index, counted from 0; past the last, `found` is 0, which is no refusal.
 * 18 where there is no such part. */
void seg2_string(struct seg2_string *answer, const uint8_t *buffer, size_t size, size_t length, int32_t part, size_t index);

/* All strings of a part in one call, for a listing: its time grows with the strings, where one call for each string goes
 * through the list every time. The row has exactly four elements for each string, so 4 times what seg2_string_count
 * answers: key_start, key_length, value_start and value_length as in struct seg2_string, string behind string in the
 * order of the file. 18 where there is no such part, 32 where the row has another length; after a refusal the row is as
 * it was. */
seg2_verdict seg2_strings(const uint8_t *buffer, size_t size, size_t length, int32_t part, size_t *row, size_t row_size);

/* Whether a part has a keyword: yes, no, or the refusal. Any bytes may be asked for; what cannot be a keyword is
 * a no. 18 where there is no such part.
 *
 * RECEIVER_GEOMETRY and SOURCE_GEOMETRY may stand several times running in a part. This question and the next four
 * answer the first of them; seg2_string and seg2_strings have them all. */
void seg2_keyword(struct seg2_keyword *answer, const uint8_t *buffer, size_t size, size_t length, int32_t part,
                  const void *key, size_t key_size);

/* The value of a keyword as the buffer's own bytes. A no is start 0 and length 0 without a refusal; a value that
 * is there, be it empty, never starts at 0. 18 where there is no such part. */
void seg2_value(struct seg2_value *answer, const uint8_t *buffer, size_t size, size_t length, int32_t part,
                const void *key, size_t key_size);

/* The value of a keyword as a number. 18 where there is no such part, 20 where the value is no number (so where
 * the keyword is missing), 21 where it has too many digits. */
void seg2_number(struct seg2_number *answer, const uint8_t *buffer, size_t size, size_t length, int32_t part,
                 const void *key, size_t key_size);

/* The value of a keyword as a double: the coefficient, multiplied or divided once by a power of ten. The
 * refusals of seg2_number, then 22 where the coefficient is over 9,007,199,254,740,991 or the power not -15 to 15. */
void seg2_double(struct seg2_double *answer, const uint8_t *buffer, size_t size, size_t length, int32_t part,
                 const void *key, size_t key_size);

/* The value of a keyword as a location: x, or x, y and z, as doubles parted by spaces or tabs. 18 where there is
 * no such part, 23 where the values are neither one nor three (so where the keyword is missing), then 20 to 22
 * value by value. */
void seg2_location(struct seg2_location *answer, const uint8_t *buffer, size_t size, size_t length, int32_t part,
                   const void *key, size_t key_size);

/* The samples of a trace of code 1 to 3, into a row of exactly S elements. 18 where there is no such trace, 33
 * where its code is 4 or 5, 32 where the row has another length; after a refusal the row is as it was. */
seg2_verdict seg2_integers(const uint8_t *buffer, size_t size, size_t length, int32_t trace, int32_t *row, size_t row_size);

/* The bit patterns of the samples of a trace of code 4 or 5 and their classes (enum seg2_class), into two rows of
 * exactly S elements. Code 4 fills the low 32 bits of a pattern. 18, 33 (its code is 1 to 3) and 32 as above; after
 * a refusal both rows are as they were. */
seg2_verdict seg2_bits(const uint8_t *buffer, size_t size, size_t length, int32_t trace, uint64_t *row, size_t row_size,
                       uint8_t *classes, size_t classes_size);

/* ---- one trace, quickly (document 02, section 5): without the check of the whole file
 *
 * Every question on a trace has a quick form, with the same arguments and the same answer. What it costs does not grow with
 * the number of traces: one value of a long file is there at once, and all traces of a file take time in proportion to
 * their number. There is no quick form of the file's own strings: part -1 is asked by the functions above.
 *
 * Each reads the file block's first 32 bytes, the trace's pointer and the first 32 bytes of its block; then, where the
 * question is on strings, the trace's strings in order, each whole, as far as its comment says; and where it is on samples,
 * the trace's data. It looks at nothing else: not at the strings behind, the other traces or the file's own strings, at no
 * data where it is asked for strings, and at no string where it is asked for samples.
 *
 * So this is no check. It may answer where seg2_check refuses the file, for something that was not read; whoever wants to
 * know whether the file is sound asks seg2_check. Where seg2_check accepts the file, the answer is that of the function
 * without quick in its name, rows included, for every trace number from 0 on.
 *
 * Refusals, of what was read alone: 1 to 7, then 18 where there is no such trace (-1 is none), 8 (a pointer that is no
 * multiple of 4, leads into the pointer room, or leaves no room for a block; it may lead into another trace), 9 to 13, then
 * those of the question, and for strings 14 to 17 before them, string by string. 34 is never given: it would need another
 * trace. After a refusal a lent row is as it was. */

/* The block of a trace: no string and no data is read, and no row more refuses. */
void seg2_quick_trace_block(seg2_trace *answer, const uint8_t *buffer, size_t size, size_t length, int32_t trace);

/* How many strings a trace has: all of them are read, and the end mark. */
void seg2_quick_string_count(seg2_count *answer, const uint8_t *buffer, size_t size, size_t length, int32_t trace);

/* The string of a trace with this index: read are those up to it, itself too, and where there are fewer, all of them and the
 * end mark; then `found` is 0, which is no refusal. */
void seg2_quick_string(struct seg2_string *answer, const uint8_t *buffer, size_t size, size_t length, int32_t trace, size_t index);

/* All strings of a trace into a row of four elements each, as seg2_strings: all of them are read, and the end mark. 32, behind
 * 14 to 17, where the row has not exactly 4 times seg2_quick_string_count elements. */
seg2_verdict seg2_quick_strings(const uint8_t *buffer, size_t size, size_t length, int32_t trace, size_t *row, size_t row_size);

/* Whether a trace has a keyword: yes, no, or the refusal. Strings are read until the keyword is found or passed: until one
 * stands there that is greater than the asked one, or NOTE. NOTE itself is sought to the end of the list. The found or passed
 * string is judged too. Any bytes may be asked for; what cannot be a keyword is sought by its bytes like others, and is a
 * no. */
void seg2_quick_keyword(struct seg2_keyword *answer, const uint8_t *buffer, size_t size, size_t length, int32_t trace,
                        const void *key, size_t key_size);

/* The value of a trace's keyword as the buffer's own bytes, the first where it stands several times; the strings are read as
 * far as for seg2_quick_keyword. A no is start 0 and length 0 without a refusal; a value that is there, be it empty, never
 * starts at 0. The lines of a NOTE are parted by the line terminator, whose length stands in byte 11 of the file and whose
 * characters in byte 12 on; where there is an answer, both have been judged. */
void seg2_quick_value(struct seg2_value *answer, const uint8_t *buffer, size_t size, size_t length, int32_t trace,
                      const void *key, size_t key_size);

/* That value as a number: then 20 or 21, as seg2_number. */
void seg2_quick_number(struct seg2_number *answer, const uint8_t *buffer, size_t size, size_t length, int32_t trace,
                       const void *key, size_t key_size);

/* That value as a double: then 20 to 22, as seg2_double. */
void seg2_quick_double(struct seg2_double *answer, const uint8_t *buffer, size_t size, size_t length, int32_t trace,
                       const void *key, size_t key_size);

/* That value as a location: then 23, and 20 to 22 value by value, as seg2_location. */
void seg2_quick_location(struct seg2_location *answer, const uint8_t *buffer, size_t size, size_t length, int32_t trace,
                         const void *key, size_t key_size);

/* The samples of a trace of code 1 to 3, into a row of exactly S elements: 33, then 32, as seg2_integers. */
seg2_verdict seg2_quick_integers(const uint8_t *buffer, size_t size, size_t length, int32_t trace, int32_t *row, size_t row_size);

/* The bit patterns of the samples of a trace of code 4 or 5 and their classes, into two rows of exactly S elements: 33, then
 * 32, as seg2_bits. */
seg2_verdict seg2_quick_bits(const uint8_t *buffer, size_t size, size_t length, int32_t trace, uint64_t *row, size_t row_size,
                             uint8_t *classes, size_t classes_size);

/* ---- older recorders (document 02, section 11): a lenient reading
 *
 * Recorders from before our own put strings in any order, in lower case, and leave out the end mark where the strings fill their
 * area. Every question above but the quick ones has a lenient form, which reads such files too. It has the same arguments behind
 * a place for its answer, and the same answer there. In the file's own strings and in each trace's it forgives four things:
 *   - lower-case letters in a keyword: it counts as its upper-case form wherever it is compared. So `note` is NOTE, and its
 *     value may have several lines;
 *   - any order of the keywords, and any keyword several times: 17 is never given;
 *   - a list of strings without an end mark, where no byte of the area is left behind the last string. A single byte behind it
 *     is 14 as before, and an offset of 0 ends the list as before;
 *   - CHANNEL_NUMBER is not looked at: 34 is never given.
 * It forgives nothing else. Rows 1 to 13 and 15 are refused as ever, and so is what is left of 14 and 16: an offset that is too
 * small or leads past its area, a forbidden character in a value, an empty keyword, a keyword character that is not 33 to 126.
 *
 * Beside its answer each tells in `strict` what seg2_check says of the same bytes: the first row that they meet, 1 to 17 or 34,
 * with its part and place, or no refusal. So a host can show an old file and say what is wrong with it. `strict` stands there
 * behind a refusal too; the rest of `answer` is 0 then, and a lent row is as it was.
 *
 * Where `strict` is no refusal, `answer` is the one of the function without lenient in its name, rows included: then the other
 * functions, the quick ones too, say the same and cost less. Where the lenient reading refuses a file, the strict one refuses
 * it too: by the same row, or by one of 14, 16, 17 and 34 that it meets earlier. Nothing is added to a file that seg2_check
 * refuses: seg2_add_integers and seg2_add_bits ask for the strict check, as ever.
 *
 * Each goes through the whole file twice, once for each reading, and there are no quick forms. Who wants much of an old file asks
 * for what it needs once and keeps it: seg2_lenient_strings has all strings of a part.
 *
 * A key is taken as it is given, and keywords count as upper case: STACK finds `Stack`, while `stack` finds nothing, as ever. Of
 * a keyword that stands several times a question answers the first; count, string and strings have them all. Places lead to
 * the buffer's bytes as they stand there, so a keyword may have lower-case letters. */

/* Whether the first `length` bytes are a file that can be read leniently: if not, the first row that they meet, 1 to 16. In
 * `strict` what seg2_check answers. Where `answer` is no refusal and `strict` is one, that one is forgiven: 14, 16, 17 or 34. */
void seg2_lenient_check(seg2_lenient_verdict *answer, const uint8_t *buffer, size_t size, size_t length);

/* The file block, as seg2_file_block. */
void seg2_lenient_file_block(seg2_lenient_file *answer, const uint8_t *buffer, size_t size, size_t length);

/* The block of a trace, as seg2_trace_block: 18 where there is no such trace. */
void seg2_lenient_trace_block(seg2_lenient_trace *answer, const uint8_t *buffer, size_t size, size_t length, int32_t trace);

/* How many strings a part has, as seg2_string_count; repeats count one by one. 18 where there is no such part. */
void seg2_lenient_string_count(seg2_lenient_count *answer, const uint8_t *buffer, size_t size, size_t length, int32_t part);

/* The string of a part with this index in the order of the file, as seg2_string: `found` is 0 past the last. 18 where there is
 * no such part. */
void seg2_lenient_string(struct seg2_lenient_string *answer, const uint8_t *buffer, size_t size, size_t length, int32_t part,
                         size_t index);

/* All strings of a part in the order of the file, as seg2_strings: into a row of four elements each. 18, then 32 where the row
 * has not exactly 4 times seg2_lenient_string_count elements. */
void seg2_lenient_strings(seg2_lenient_verdict *answer, const uint8_t *buffer, size_t size, size_t length, int32_t part,
                          size_t *row, size_t row_size);

/* Whether a part has a keyword, in upper or lower case, as seg2_keyword. 18 where there is no such part. */
void seg2_lenient_keyword(struct seg2_lenient_keyword *answer, const uint8_t *buffer, size_t size, size_t length, int32_t part,
                          const void *key, size_t key_size);

/* The value of a keyword as the buffer's own bytes, the first where it stands several times, as seg2_value: a no is start 0
 * and length 0. 18 where there is no such part. */
void seg2_lenient_value(struct seg2_lenient_value *answer, const uint8_t *buffer, size_t size, size_t length, int32_t part,
                        const void *key, size_t key_size);

/* That value as a number: 18, then 20 or 21, as seg2_number. */
void seg2_lenient_number(struct seg2_lenient_number *answer, const uint8_t *buffer, size_t size, size_t length, int32_t part,
                         const void *key, size_t key_size);

/* That value as a double: 18, then 20 to 22, as seg2_double. */
void seg2_lenient_double(struct seg2_lenient_double *answer, const uint8_t *buffer, size_t size, size_t length, int32_t part,
                         const void *key, size_t key_size);

/* That value as a location: 18, then 23, and 20 to 22 value by value, as seg2_location. */
void seg2_lenient_location(struct seg2_lenient_location *answer, const uint8_t *buffer, size_t size, size_t length, int32_t part,
                           const void *key, size_t key_size);

/* The samples of a trace of code 1 to 3, into a row of exactly S elements: 18, 33, then 32, as seg2_integers. */
void seg2_lenient_integers(seg2_lenient_verdict *answer, const uint8_t *buffer, size_t size, size_t length, int32_t trace,
                           int32_t *row, size_t row_size);

/* The bit patterns of the samples of a trace of code 4 or 5 and their classes, into two rows of exactly S elements: 18, 33, then
 * 32, as seg2_bits. */
void seg2_lenient_bits(seg2_lenient_verdict *answer, const uint8_t *buffer, size_t size, size_t length, int32_t trace,
                       uint64_t *row, size_t row_size, uint8_t *classes, size_t classes_size);

/* ---- a number and its text (document 02, section 4): no file is lent, so no row of its check comes first */

/* A text as a number: what a user typed, before it goes into a sheet. Any bytes may be given. The answer is the one that
 * seg2_number gives where a keyword's value is this text. 20 where it is no number, 21 where it has too many digits;
 * place 0. */
void seg2_read_number(struct seg2_number *answer, const void *text, size_t size);

/* Writes a number as text, as a value of a sheet has it, at the start of the lent `size` bytes, and answers the text's
 * length: exactly `decimals` digits after the point, at least one before it and otherwise no zero in front, then E with
 * the power plus the decimals where this is not 0. `minus` is 0 or not. What seg2_number or seg2_read_number has answered
 * is written as a text that reads back as the same answer, and SEG2_MAXIMUM_NUMBER_TEXT bytes are room enough for it; any
 * other numbers may be given too. Refusals in order, place 0: 20 for zero with a minus, 21 for more than 18 digits before
 * E or more than 2 after it, 30 where the text is longer than `size`. A refusal has changed no byte; bytes past the text
 * stay as they were. */
void seg2_write_number(seg2_length *answer, void *text, size_t size, uint32_t minus, uint64_t coefficient,
                       int32_t power, uint32_t decimals);

/* ---- writing: a refusal has changed no byte; bytes past the answered length stay as they were
 *
 * A sheet is lines of text, each a keyword, a tab, a value and 0Ah, with the keywords rising. RECEIVER_GEOMETRY and
 * SOURCE_GEOMETRY may have several lines running, each a string of its own. Consecutive NOTE lines at its end are the
 * lines of one NOTE. An empty sheet is a list without strings.
 *
 * A trace's sheet may have a CHANNEL_NUMBER: 1 to 32,767 in plain digits, without sign, point or E. The first trace of a
 * file chooses: if its sheet has one, every later sheet has one, and if it has none, none has. The file's own sheet is
 * free. */

/* Writes the image of a new file without traces at the buffer's start and answers its length. `order` is enum
 * seg2_order, `slots` how many traces the file can take, 1 to SEG2_MAXIMUM_SLOTS. Refusals in order: 31, 25, 26 (line
 * by line), 27, 30. The image is no file yet: the questions refuse it by 5 until a trace is added. */
void seg2_start(seg2_length *answer, uint8_t *buffer, size_t size, uint32_t order, uint32_t slots,
                const void *sheet, size_t sheet_size);

/* The room that a start needs: the length that it would answer, without a buffer. Refusals in order: 31, 25, 26 (line by
 * line), 27. A buffer of that many bytes is enough for seg2_start with the same arguments, and a smaller one is refused
 * by 30. */
void seg2_start_size(seg2_length *answer, uint32_t order, uint32_t slots, const void *sheet, size_t sheet_size);

/* Adds a trace of code 1 to 3 behind the file, or new image, that the first `length` bytes are, and answers the new
 * length. Refusals in order: 1 to 17 and 34 for the file, 24, 25, 26 (line by line), 27, 35, 28, 29, 30. */
void seg2_add_integers(seg2_length *answer, uint8_t *buffer, size_t size, size_t length,
                       const void *sheet, size_t sheet_size, uint32_t code, const int32_t *row, size_t row_size);

/* Adds a trace of code 4 or 5 from bit patterns, in the same way and with the same refusals. */
void seg2_add_bits(seg2_length *answer, uint8_t *buffer, size_t size, size_t length,
                   const void *sheet, size_t sheet_size, uint32_t code, const uint64_t *row, size_t row_size);

/* The room that an addition of `sample_count` samples needs: the new length that it would answer, without room for it and
 * without the samples. The file stands in the first `length` bytes of the buffer, of which none is changed; `code` is any of
 * the five. Refusals in order: 1 to 17 and 34 for the file, 24, 25, 26 (line by line), 27, 35, 28 where the code is not 1 to 5
 * or the count no multiple of 4 under code 3, 30 where the new length is over SEG2_MAXIMUM_LENGTH. With a buffer of that many
 * bytes, the file in its first ones, the addition is made if each sample is within its code (29). */
void seg2_add_size(seg2_length *answer, const uint8_t *buffer, size_t size, size_t length, const void *sheet,
                   size_t sheet_size, uint32_t code, size_t sample_count);

/* ---- the same, with the answer returned */

static inline seg2_file seg2_file_block_of(const uint8_t *buffer, size_t size, size_t length) {
    seg2_file answer;
    seg2_file_block(&answer, buffer, size, length);
    return answer;
}

static inline seg2_trace seg2_trace_block_of(const uint8_t *buffer, size_t size, size_t length, int32_t trace) {
    seg2_trace answer;
    seg2_trace_block(&answer, buffer, size, length, trace);
    return answer;
}

static inline seg2_count seg2_string_count_of(const uint8_t *buffer, size_t size, size_t length, int32_t part) {
    seg2_count answer;
    seg2_string_count(&answer, buffer, size, length, part);
    return answer;
}

static inline struct seg2_string seg2_string_of(const uint8_t *buffer, size_t size, size_t length, int32_t part, size_t index) {
    struct seg2_string answer;
    seg2_string(&answer, buffer, size, length, part, index);
    return answer;
}

static inline struct seg2_keyword seg2_keyword_of(const uint8_t *buffer, size_t size, size_t length, int32_t part,
                                                  const void *key, size_t key_size) {
    struct seg2_keyword answer;
    seg2_keyword(&answer, buffer, size, length, part, key, key_size);
    return answer;
}

static inline struct seg2_value seg2_value_of(const uint8_t *buffer, size_t size, size_t length, int32_t part,
                                              const void *key, size_t key_size) {
    struct seg2_value answer;
    seg2_value(&answer, buffer, size, length, part, key, key_size);
    return answer;
}

static inline struct seg2_number seg2_number_of(const uint8_t *buffer, size_t size, size_t length, int32_t part,
                                                const void *key, size_t key_size) {
    struct seg2_number answer;
    seg2_number(&answer, buffer, size, length, part, key, key_size);
    return answer;
}

static inline struct seg2_double seg2_double_of(const uint8_t *buffer, size_t size, size_t length, int32_t part,
                                                const void *key, size_t key_size) {
    struct seg2_double answer;
    seg2_double(&answer, buffer, size, length, part, key, key_size);
    return answer;
}

static inline struct seg2_location seg2_location_of(const uint8_t *buffer, size_t size, size_t length, int32_t part,
                                                    const void *key, size_t key_size) {
    struct seg2_location answer;
    seg2_location(&answer, buffer, size, length, part, key, key_size);
    return answer;
}

static inline seg2_trace seg2_quick_trace_block_of(const uint8_t *buffer, size_t size, size_t length, int32_t trace) {
    seg2_trace answer;
    seg2_quick_trace_block(&answer, buffer, size, length, trace);
    return answer;
}

static inline seg2_count seg2_quick_string_count_of(const uint8_t *buffer, size_t size, size_t length, int32_t trace) {
    seg2_count answer;
    seg2_quick_string_count(&answer, buffer, size, length, trace);
    return answer;
}

static inline struct seg2_string seg2_quick_string_of(const uint8_t *buffer, size_t size, size_t length, int32_t trace, size_t index) {
    struct seg2_string answer;
    seg2_quick_string(&answer, buffer, size, length, trace, index);
    return answer;
}

static inline struct seg2_keyword seg2_quick_keyword_of(const uint8_t *buffer, size_t size, size_t length, int32_t trace,
                                                        const void *key, size_t key_size) {
    struct seg2_keyword answer;
    seg2_quick_keyword(&answer, buffer, size, length, trace, key, key_size);
    return answer;
}

static inline struct seg2_value seg2_quick_value_of(const uint8_t *buffer, size_t size, size_t length, int32_t trace,
                                                    const void *key, size_t key_size) {
    struct seg2_value answer;
    seg2_quick_value(&answer, buffer, size, length, trace, key, key_size);
    return answer;
}

static inline struct seg2_number seg2_quick_number_of(const uint8_t *buffer, size_t size, size_t length, int32_t trace,
                                                      const void *key, size_t key_size) {
    struct seg2_number answer;
    seg2_quick_number(&answer, buffer, size, length, trace, key, key_size);
    return answer;
}

static inline struct seg2_double seg2_quick_double_of(const uint8_t *buffer, size_t size, size_t length, int32_t trace,
                                                      const void *key, size_t key_size) {
    struct seg2_double answer;
    seg2_quick_double(&answer, buffer, size, length, trace, key, key_size);
    return answer;
}

static inline struct seg2_location seg2_quick_location_of(const uint8_t *buffer, size_t size, size_t length, int32_t trace,
                                                          const void *key, size_t key_size) {
    struct seg2_location answer;
    seg2_quick_location(&answer, buffer, size, length, trace, key, key_size);
    return answer;
}

static inline seg2_lenient_verdict seg2_lenient_check_of(const uint8_t *buffer, size_t size, size_t length) {
    seg2_lenient_verdict answer;
    seg2_lenient_check(&answer, buffer, size, length);
    return answer;
}

static inline seg2_lenient_file seg2_lenient_file_block_of(const uint8_t *buffer, size_t size, size_t length) {
    seg2_lenient_file answer;
    seg2_lenient_file_block(&answer, buffer, size, length);
    return answer;
}

static inline seg2_lenient_trace seg2_lenient_trace_block_of(const uint8_t *buffer, size_t size, size_t length, int32_t trace) {
    seg2_lenient_trace answer;
    seg2_lenient_trace_block(&answer, buffer, size, length, trace);
    return answer;
}

static inline seg2_lenient_count seg2_lenient_string_count_of(const uint8_t *buffer, size_t size, size_t length, int32_t part) {
    seg2_lenient_count answer;
    seg2_lenient_string_count(&answer, buffer, size, length, part);
    return answer;
}

static inline struct seg2_lenient_string seg2_lenient_string_of(const uint8_t *buffer, size_t size, size_t length, int32_t part,
                                                                size_t index) {
    struct seg2_lenient_string answer;
    seg2_lenient_string(&answer, buffer, size, length, part, index);
    return answer;
}

static inline seg2_lenient_verdict seg2_lenient_strings_of(const uint8_t *buffer, size_t size, size_t length, int32_t part,
                                                           size_t *row, size_t row_size) {
    seg2_lenient_verdict answer;
    seg2_lenient_strings(&answer, buffer, size, length, part, row, row_size);
    return answer;
}

static inline struct seg2_lenient_keyword seg2_lenient_keyword_of(const uint8_t *buffer, size_t size, size_t length,
                                                                  int32_t part, const void *key, size_t key_size) {
    struct seg2_lenient_keyword answer;
    seg2_lenient_keyword(&answer, buffer, size, length, part, key, key_size);
    return answer;
}

static inline struct seg2_lenient_value seg2_lenient_value_of(const uint8_t *buffer, size_t size, size_t length, int32_t part,
                                                              const void *key, size_t key_size) {
    struct seg2_lenient_value answer;
    seg2_lenient_value(&answer, buffer, size, length, part, key, key_size);
    return answer;
}

static inline struct seg2_lenient_number seg2_lenient_number_of(const uint8_t *buffer, size_t size, size_t length, int32_t part,
                                                                const void *key, size_t key_size) {
    struct seg2_lenient_number answer;
    seg2_lenient_number(&answer, buffer, size, length, part, key, key_size);
    return answer;
}

static inline struct seg2_lenient_double seg2_lenient_double_of(const uint8_t *buffer, size_t size, size_t length, int32_t part,
                                                                const void *key, size_t key_size) {
    struct seg2_lenient_double answer;
    seg2_lenient_double(&answer, buffer, size, length, part, key, key_size);
    return answer;
}

static inline struct seg2_lenient_location seg2_lenient_location_of(const uint8_t *buffer, size_t size, size_t length,
                                                                    int32_t part, const void *key, size_t key_size) {
    struct seg2_lenient_location answer;
    seg2_lenient_location(&answer, buffer, size, length, part, key, key_size);
    return answer;
}

static inline seg2_lenient_verdict seg2_lenient_integers_of(const uint8_t *buffer, size_t size, size_t length, int32_t trace,
                                                            int32_t *row, size_t row_size) {
    seg2_lenient_verdict answer;
    seg2_lenient_integers(&answer, buffer, size, length, trace, row, row_size);
    return answer;
}

static inline seg2_lenient_verdict seg2_lenient_bits_of(const uint8_t *buffer, size_t size, size_t length, int32_t trace,
                                                        uint64_t *row, size_t row_size, uint8_t *classes, size_t classes_size) {
    seg2_lenient_verdict answer;
    seg2_lenient_bits(&answer, buffer, size, length, trace, row, row_size, classes, classes_size);
    return answer;
}

static inline struct seg2_number seg2_read_number_of(const void *text, size_t size) {
    struct seg2_number answer;
    seg2_read_number(&answer, text, size);
    return answer;
}

static inline seg2_length seg2_write_number_of(void *text, size_t size, uint32_t minus, uint64_t coefficient,
                                               int32_t power, uint32_t decimals) {
    seg2_length answer;
    seg2_write_number(&answer, text, size, minus, coefficient, power, decimals);
    return answer;
}

static inline seg2_length seg2_start_of(uint8_t *buffer, size_t size, uint32_t order, uint32_t slots,
                                        const void *sheet, size_t sheet_size) {
    seg2_length answer;
    seg2_start(&answer, buffer, size, order, slots, sheet, sheet_size);
    return answer;
}

static inline seg2_length seg2_start_size_of(uint32_t order, uint32_t slots, const void *sheet, size_t sheet_size) {
    seg2_length answer;
    seg2_start_size(&answer, order, slots, sheet, sheet_size);
    return answer;
}

static inline seg2_length seg2_add_integers_of(uint8_t *buffer, size_t size, size_t length, const void *sheet,
                                               size_t sheet_size, uint32_t code, const int32_t *row, size_t row_size) {
    seg2_length answer;
    seg2_add_integers(&answer, buffer, size, length, sheet, sheet_size, code, row, row_size);
    return answer;
}

static inline seg2_length seg2_add_bits_of(uint8_t *buffer, size_t size, size_t length, const void *sheet,
                                           size_t sheet_size, uint32_t code, const uint64_t *row, size_t row_size) {
    seg2_length answer;
    seg2_add_bits(&answer, buffer, size, length, sheet, sheet_size, code, row, row_size);
    return answer;
}

static inline seg2_length seg2_add_size_of(const uint8_t *buffer, size_t size, size_t length, const void *sheet,
                                           size_t sheet_size, uint32_t code, size_t sample_count) {
    seg2_length answer;
    seg2_add_size(&answer, buffer, size, length, sheet, sheet_size, code, sample_count);
    return answer;
}

/* ---- words */

/* The buffer's bytes from a place on, as C's functions for text take them: a keyword or a value, with its length beside it,
 * as in printf("%.*s", (int)value.value_length, seg2_chars(buffer, value.value_start)). No 0 ends them. */
static inline const char *seg2_chars(const uint8_t *buffer, size_t start) {
    return (const char *)buffer + start;
}

/* A row of the table in words for a crew; never null. Rust's `text` and Java's `text()` have the same. */
static inline const char *seg2_text(uint32_t number) {
    switch (number) {
    case SEG2_ACCEPTED: return "accepted";
    case SEG2_LENGTH: return "the length is under 32 bytes, over 67,108,864 bytes, or over the buffer";
    case SEG2_FIRST_BYTES: return "the first two bytes are not those of a SEG-2 file";
    case SEG2_REVISION: return "the revision is not 1";
    case SEG2_POINTER_ROOM: return "the size of the pointer room is under 4 or no multiple of 4";
    case SEG2_TRACE_COUNT: return "there are no traces yet, or more than the pointer room holds";
    case SEG2_TERMINATOR: return "a terminator is bad, or the two terminators share a character";
    case SEG2_ROOM_END: return "the pointer room goes past the end of the file";
    case SEG2_POINTER: return "the trace's pointer is no multiple of 4, leads into what stands before, or leaves no room for a block";
    case SEG2_TRACE_MARK: return "no trace block where the pointer leads";
    case SEG2_BLOCK_SIZE: return "the block's size is under 32, no multiple of 4, or goes past the end";
    case SEG2_DATA_SIZE: return "the data's size is no multiple of 4 or goes past the end";
    case SEG2_FORMAT_CODE: return "the format code is not 1 to 5";
    case SEG2_SAMPLE_COUNT: return "the samples need more bytes than the data has, or are no multiple of 4 under code 3";
    case SEG2_STRING_OFFSET: return "a string's offset is missing, too small for a keyword, or leads past its area";
    case SEG2_STRING_END: return "the string terminator is not at the string's end";
    case SEG2_CHARACTER: return "a forbidden character in a keyword or value, or an empty keyword";
    case SEG2_KEYWORD_ORDER: return "the keyword is out of order, or there twice (only RECEIVER_GEOMETRY and SOURCE_GEOMETRY may repeat)";
    case SEG2_NO_TRACE: return "the file has no such part; traces count from 0";
    case SEG2_INPUT_SIZE: return "the listing program's input is longer than 65,536 bytes";
    case SEG2_NO_NUMBER: return "this is not a number, the keyword is missing, or a zero to be written has a minus";
    case SEG2_DIGITS: return "the number has too many digits";
    case SEG2_NO_DOUBLE: return "the number is too long, too large or too small to be taken as a double";
    case SEG2_VALUE_COUNT: return "a location is one value or three: here is another number of values, or the keyword is missing";
    case SEG2_NO_SLOT: return "no trace slot is free: the file has all traces that it was started for";
    case SEG2_SHEET_LINE: return "a line of the sheet is not a keyword, a tab and a value";
    case SEG2_SHEET_ORDER: return "a line of the sheet is out of order, or its keyword is there twice (only RECEIVER_GEOMETRY, SOURCE_GEOMETRY and NOTE may have several lines)";
    case SEG2_AREA_SIZE: return "the sheet's strings need more than 65,500 bytes";
    case SEG2_ENTRY_CODE: return "the format code does not fit these samples, or their count is no multiple of 4 under code 3";
    case SEG2_SAMPLE_RANGE: return "a sample is outside what the format code can hold";
    case SEG2_NO_ROOM: return "the result is longer than the buffer or than 67,108,864 bytes";
    case SEG2_START_VALUES: return "the pointer slots are not 1 to 16,383, or the byte order is not 0 or 1";
    case SEG2_ROW_LENGTH: return "the row's length is not the number of samples, or not four times the number of strings";
    case SEG2_CODE_KIND: return "integers are asked of code 4 or 5, or bit patterns of code 1 to 3";
    case SEG2_CHANNEL_NUMBER: return "the trace's CHANNEL_NUMBER is not 1 to 32,767 in plain digits, or only one of this trace and trace 0 has it";
    case SEG2_SHEET_CHANNEL: return "the sheet's CHANNEL_NUMBER is not 1 to 32,767 in plain digits, is missing where the file's traces have it, or there where they have none";
    default: return "a number that is not in the table";
    }
}

#ifdef __cplusplus
}
#endif

#endif
