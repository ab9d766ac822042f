/* The header as a C program uses it, in C99 and in C++: every function on document 01's example file, which is built here, and on one with floats.
 * Prints each answer on a line; header.rs knows the lines. */
#include "seg2.h"

#include <stdio.h>
#include <string.h>

typedef char size_t_has_64_bits[sizeof(size_t) == 8 ? 1 : -1];
typedef char a_verdict_has_16_bytes[sizeof(seg2_verdict) == 16 ? 1 : -1];

static uint8_t buffer[400];
static uint8_t before[400];

/* Number, part and place, as every answer begins. */
static void refusal(const char *what, uint32_t number, int32_t part, size_t place) {
    printf("%s: %u %d %lu", what, (unsigned)number, (int)part, (unsigned long)place);
}

static void told_verdict(const char *what, seg2_verdict v) {
    refusal(what, v.number, v.part, v.place);
    printf("\n");
}

static void told_number(const char *what, struct seg2_number a) {
    refusal(what, a.number, a.part, a.place);
    printf(" minus %u %lu E %d decimals %u\n", (unsigned)a.minus, (unsigned long)a.coefficient, (int)a.power, (unsigned)a.decimals);
}

static void told_location(const char *what, struct seg2_location a) {
    refusal(what, a.number, a.part, a.place);
    printf(" count %u %g %g %g decimals %u %u %u\n", (unsigned)a.count, a.x, a.y, a.z, (unsigned)a.x_decimals, (unsigned)a.y_decimals,
           (unsigned)a.z_decimals);
}

static void told_trace(const char *what, seg2_trace a) {
    refusal(what, a.number, a.part, a.place);
    printf(" p %lu B %lu D %lu S %lu code %u\n", (unsigned long)a.start, (unsigned long)a.block_size, (unsigned long)a.data_size,
           (unsigned long)a.sample_count, (unsigned)a.format_code);
}

static void told_count(const char *what, seg2_count a) {
    refusal(what, a.number, a.part, a.place);
    printf(" %lu\n", (unsigned long)a.count);
}

static void told_string(const char *what, struct seg2_string a) {
    refusal(what, a.number, a.part, a.place);
    printf(" found %u '%.*s' '%.*s'\n", (unsigned)a.found, (int)a.key_length, seg2_chars(buffer, a.key_start), (int)a.value_length,
           seg2_chars(buffer, a.value_start));
}

static void told_double(const char *what, struct seg2_double a) {
    refusal(what, a.number, a.part, a.place);
    printf(" %g\n", a.value);
}

static void told_patterns(const uint64_t *row, const uint8_t *classes) {
    printf("row %016lX %u %016lX %u\n", (unsigned long)row[0], (unsigned)classes[0], (unsigned long)row[1], (unsigned)classes[1]);
}

/* The four places of one string. */
static void told_places(const size_t *row) {
    printf("places %lu %lu %lu %lu\n", (unsigned long)row[0], (unsigned long)row[1], (unsigned long)row[2], (unsigned long)row[3]);
}

static size_t told_length(const char *what, seg2_length a) {
    refusal(what, a.number, a.part, a.place);
    printf(" length %lu\n", (unsigned long)a.length);
    return a.length;
}

/* All questions on the first `length` bytes of the buffer. */
static void ask(size_t length) {
    const size_t size = sizeof buffer;
    int32_t row[3] = {7, 7, 7};
    size_t places[4] = {7, 7, 7, 7};
    seg2_file file;
    seg2_trace trace;
    seg2_count count;
    struct seg2_string string;
    struct seg2_keyword keyword;
    struct seg2_value value;
    struct seg2_number number;
    struct seg2_double twice;
    struct seg2_location location;

    told_verdict("check", seg2_check(buffer, size, length));

    seg2_file_block(&file, buffer, size, length);
    refusal("file", file.number, file.part, file.place);
    printf(" order %u M %lu N %lu terminators %lu %lu\n", (unsigned)file.order, (unsigned long)file.pointer_room,
           (unsigned long)file.trace_count, (unsigned long)file.string_terminator_size, (unsigned long)file.line_terminator_size);

    seg2_trace_block(&trace, buffer, size, length, 0);
    told_trace("trace", trace);

    seg2_string_count(&count, buffer, size, length, -1);
    told_count("count", count);

    seg2_string(&string, buffer, size, length, -1, 0);
    told_string("string", string);

    string = seg2_string_of(buffer, size, length, -1, 1);
    refusal("string past the last", string.number, string.part, string.place);
    printf(" found %u %lu %lu %lu %lu\n", (unsigned)string.found, (unsigned long)string.key_start, (unsigned long)string.key_length,
           (unsigned long)string.value_start, (unsigned long)string.value_length);

    told_verdict("strings", seg2_strings(buffer, size, length, -1, places, 4));
    told_places(places);

    seg2_keyword(&keyword, buffer, size, length, 0, SEG2_LITERAL("STACK"));
    refusal("keyword", keyword.number, keyword.part, keyword.place);
    printf(" found %u\n", (unsigned)keyword.found);

    /* no bytes at all are asked for, and the pointer is still not null */
    keyword = seg2_keyword_of(buffer, size, length, 0, SEG2_LITERAL(""));
    refusal("no keyword", keyword.number, keyword.part, keyword.place);
    printf(" found %u\n", (unsigned)keyword.found);

    seg2_value(&value, buffer, size, length, -1, SEG2_LITERAL("UNITS"));
    refusal("value", value.number, value.part, value.place);
    printf(" '%.*s' at %lu\n", (int)value.value_length, seg2_chars(buffer, value.value_start), (unsigned long)value.value_start);

    seg2_number(&number, buffer, size, length, 0, SEG2_LITERAL("STACK"));
    told_number("number", number);

    seg2_double(&twice, buffer, size, length, 0, SEG2_LITERAL("STACK"));
    told_double("double", twice);

    seg2_location(&location, buffer, size, length, 0, SEG2_LITERAL("STACK"));
    told_location("location", location);

    told_verdict("integers", seg2_integers(buffer, size, length, 0, row, 3));
    printf("row %d %d %d\n", (int)row[0], (int)row[1], (int)row[2]);
}

/* The refusals of questions, each by its own row; none changes a lent byte. */
static void ask_wrongly(size_t length) {
    const size_t size = sizeof buffer;
    int32_t row[4] = {7, 7, 7, 7};
    uint64_t patterns[3] = {7, 7, 7};
    uint8_t classes[3] = {7, 7, 7};
    size_t places[8] = {7, 7, 7, 7, 7, 7, 7, 7};
    struct seg2_value value;
    struct seg2_number number = seg2_number_of(buffer, size, length, -1, SEG2_LITERAL("UNITS"));
    struct seg2_double twice = seg2_double_of(buffer, size, length, -1, SEG2_LITERAL("UNITS"));
    struct seg2_location location = seg2_location_of(buffer, size, length, 0, SEG2_LITERAL("MISSING"));
    seg2_trace trace = seg2_trace_block_of(buffer, size, length, -1);
    seg2_count count = seg2_string_count_of(buffer, size, length, 1);
    seg2_file file = seg2_file_block_of(buffer, size, size + 1);

    value = seg2_value_of(buffer, size, length, -2, SEG2_LITERAL("UNITS"));
    refusal("value of no part", value.number, value.part, value.place);
    printf(" at %lu length %lu\n", (unsigned long)value.value_start, (unsigned long)value.value_length);
    refusal("no number", number.number, number.part, number.place);
    refusal("\nno double", twice.number, twice.part, twice.place);
    refusal("\nno location", location.number, location.part, location.place);
    refusal("\ntrace -1", trace.number, trace.part, trace.place);
    refusal("\nstrings of trace 1", count.number, count.part, count.place);
    refusal("\nfile over the buffer", file.number, file.part, file.place);
    printf("\n");
    told_verdict("a row of 4", seg2_integers(buffer, size, length, 0, row, 4));
    told_verdict("no such trace", seg2_integers(buffer, size, length, 1, row, 3));
    told_verdict("bits of code 1", seg2_bits(buffer, size, length, 0, patterns, 3, classes, 3));
    printf("row %d %d %d %d, %lu %u\n", (int)row[0], (int)row[1], (int)row[2], (int)row[3], (unsigned long)patterns[0], (unsigned)classes[0]);
    told_verdict("places for two strings", seg2_strings(buffer, size, length, -1, places, 8));
    told_verdict("places of no part", seg2_strings(buffer, size, length, 1, places, 4));
    told_places(places);
    printf("%s\n", memcmp(before, buffer, size) == 0 ? "unchanged" : "changed");
}

static void told_quickly(const char *what, size_t length, int32_t trace, const char *key) {
    struct seg2_value value = seg2_quick_value_of(buffer, sizeof buffer, length, trace, key, strlen(key));
    refusal(what, value.number, value.part, value.place);
    printf(" '%.*s' at %lu\n", (int)value.value_length, seg2_chars(buffer, value.value_start), (unsigned long)value.value_start);
}

/* Every quick question on a trace of integers with the one string STACK, each answer written to its place. */
static void quickly_all(size_t length, int32_t of) {
    const size_t size = sizeof buffer;
    int32_t row[3] = {7, 7, 7};
    size_t places[4] = {7, 7, 7, 7};
    seg2_trace trace;
    seg2_count count;
    struct seg2_string string;
    struct seg2_keyword keyword;
    struct seg2_value value;
    struct seg2_number number;
    struct seg2_double twice;
    struct seg2_location location;

    seg2_quick_trace_block(&trace, buffer, size, length, of);
    told_trace("quick trace", trace);
    seg2_quick_string_count(&count, buffer, size, length, of);
    told_count("quick count", count);
    seg2_quick_string(&string, buffer, size, length, of, 0);
    told_string("quick string", string);
    told_verdict("quick strings", seg2_quick_strings(buffer, size, length, of, places, 4));
    told_places(places);
    seg2_quick_keyword(&keyword, buffer, size, length, of, SEG2_LITERAL("STACK"));
    refusal("quick keyword", keyword.number, keyword.part, keyword.place);
    printf(" found %u\n", (unsigned)keyword.found);
    seg2_quick_value(&value, buffer, size, length, of, SEG2_LITERAL("STACK"));
    refusal("quick value", value.number, value.part, value.place);
    printf(" '%.*s' at %lu\n", (int)value.value_length, seg2_chars(buffer, value.value_start), (unsigned long)value.value_start);
    seg2_quick_number(&number, buffer, size, length, of, SEG2_LITERAL("STACK"));
    told_number("quick number", number);
    seg2_quick_double(&twice, buffer, size, length, of, SEG2_LITERAL("STACK"));
    told_double("quick double", twice);
    seg2_quick_location(&location, buffer, size, length, of, SEG2_LITERAL("STACK"));
    told_location("quick location", location);
    told_verdict("quick integers", seg2_quick_integers(buffer, size, length, of, row, 3));
    printf("row %d %d %d\n", (int)row[0], (int)row[1], (int)row[2]);
}

/* document 02, section 5: one trace of a file that nobody has checked */
static void quickly(size_t length) {
    const size_t size = sizeof buffer;
    int32_t row[4] = {7, 7, 7, 7};
    uint64_t patterns[3] = {7, 7, 7};
    uint8_t classes[3] = {7, 7, 7};
    size_t places[5] = {7, 7, 7, 7, 7};
    struct seg2_keyword keyword;

    quickly_all(length, 0);
    quickly_all(length, 1);
    keyword = seg2_quick_keyword_of(buffer, size, length, 0, SEG2_LITERAL(""));
    refusal("no quick keyword", keyword.number, keyword.part, keyword.place);
    printf(" found %u\n", (unsigned)keyword.found);
    told_quickly("a quick no", length, 0, "DELAY");
    told_quickly("quick trace -1", length, -1, "UNITS");
    told_quickly("quick over the buffer", size + 1, 0, "STACK");
    told_trace("quick block of trace -1", seg2_quick_trace_block_of(buffer, size, length, -1));
    told_count("quick count of trace -1", seg2_quick_string_count_of(buffer, size, length, -1));
    told_string("quick string past the last", seg2_quick_string_of(buffer, size, length, 0, 1));
    told_number("no quick number", seg2_quick_number_of(buffer, size, length, 0, SEG2_LITERAL("DELAY")));
    told_double("no quick double", seg2_quick_double_of(buffer, size, length, 0, SEG2_LITERAL("DELAY")));
    told_location("no quick location", seg2_quick_location_of(buffer, size, length, 0, SEG2_LITERAL("DELAY")));
    told_verdict("a quick row of 4", seg2_quick_integers(buffer, size, length, 0, row, 4));
    told_verdict("quick bits of code 1", seg2_quick_bits(buffer, size, length, 0, patterns, 3, classes, 3));
    told_verdict("5 quick places", seg2_quick_strings(buffer, size, length, 0, places, 5));
    printf("row %d %lu %u\n", (int)row[0], (unsigned long)patterns[0], (unsigned)classes[0]);
    told_places(places);

    /* a small letter in the file's own keyword is not looked at, one in the trace's is, but where no string is asked for */
    buffer[38] = 'u';
    told_verdict("check", seg2_check(buffer, size, length));
    quickly_all(length, 0);
    buffer[38] = 'U';
    buffer[90] = 's';
    quickly_all(length, 0);
    buffer[90] = 'S';
    printf("%s\n", memcmp(before, buffer, size) == 0 ? "unchanged" : "changed");
}

/* The strict verdict that stands beside a lenient answer; the answer follows on the same line. */
static void strictly(seg2_verdict strict) {
    printf("strict %u %d %lu, ", (unsigned)strict.number, (int)strict.part, (unsigned long)strict.place);
}

/* Every lenient question, on a first trace of integers with two strings, each answer written to its place. */
static void leniently_all(size_t length) {
    const size_t size = sizeof buffer;
    int32_t row[3] = {7, 7, 7};
    uint64_t patterns[3] = {7, 7, 7};
    uint8_t classes[3] = {7, 7, 7};
    size_t places[8] = {7, 7, 7, 7, 7, 7, 7, 7};
    seg2_lenient_verdict verdict;
    seg2_lenient_file file;
    seg2_lenient_trace trace;
    seg2_lenient_count count;
    struct seg2_lenient_string string;
    struct seg2_lenient_keyword keyword;
    struct seg2_lenient_value value;
    struct seg2_lenient_number number;
    struct seg2_lenient_double twice;
    struct seg2_lenient_location location;

    seg2_lenient_check(&verdict, buffer, size, length);
    strictly(verdict.strict);
    told_verdict("lenient check", verdict.answer);
    seg2_lenient_file_block(&file, buffer, size, length);
    strictly(file.strict);
    refusal("lenient file", file.answer.number, file.answer.part, file.answer.place);
    printf(" order %u M %lu N %lu terminators %lu %lu\n", (unsigned)file.answer.order, (unsigned long)file.answer.pointer_room,
           (unsigned long)file.answer.trace_count, (unsigned long)file.answer.string_terminator_size,
           (unsigned long)file.answer.line_terminator_size);
    seg2_lenient_trace_block(&trace, buffer, size, length, 0);
    strictly(trace.strict);
    told_trace("lenient trace", trace.answer);
    seg2_lenient_string_count(&count, buffer, size, length, 0);
    strictly(count.strict);
    told_count("lenient count", count.answer);
    seg2_lenient_string(&string, buffer, size, length, 0, 1);
    strictly(string.strict);
    told_string("lenient string", string.answer);
    seg2_lenient_strings(&verdict, buffer, size, length, 0, places, 8);
    strictly(verdict.strict);
    told_verdict("lenient strings", verdict.answer);
    told_places(places);
    told_places(places + 4);
    seg2_lenient_keyword(&keyword, buffer, size, length, 0, SEG2_LITERAL("STACK"));
    strictly(keyword.strict);
    refusal("lenient keyword", keyword.answer.number, keyword.answer.part, keyword.answer.place);
    printf(" found %u\n", (unsigned)keyword.answer.found);
    seg2_lenient_value(&value, buffer, size, length, 0, SEG2_LITERAL("STACK"));
    strictly(value.strict);
    refusal("lenient value", value.answer.number, value.answer.part, value.answer.place);
    printf(" '%.*s' at %lu\n", (int)value.answer.value_length, seg2_chars(buffer, value.answer.value_start),
           (unsigned long)value.answer.value_start);
    seg2_lenient_number(&number, buffer, size, length, 0, SEG2_LITERAL("STACK"));
    strictly(number.strict);
    told_number("lenient number", number.answer);
    seg2_lenient_double(&twice, buffer, size, length, 0, SEG2_LITERAL("STACK"));
    strictly(twice.strict);
    told_double("lenient double", twice.answer);
    seg2_lenient_location(&location, buffer, size, length, 0, SEG2_LITERAL("STACK"));
    strictly(location.strict);
    told_location("lenient location", location.answer);
    seg2_lenient_integers(&verdict, buffer, size, length, 0, row, 3);
    strictly(verdict.strict);
    told_verdict("lenient integers", verdict.answer);
    printf("row %d %d %d\n", (int)row[0], (int)row[1], (int)row[2]);
    seg2_lenient_bits(&verdict, buffer, size, length, 0, patterns, 3, classes, 3);
    strictly(verdict.strict);
    told_verdict("lenient bits", verdict.answer);
    printf("row %lu %u\n", (unsigned long)patterns[0], (unsigned)classes[0]);
}

/* Their own refusals and noes, in the form that returns the answer. */
static void leniently_wrongly(size_t length) {
    const size_t size = sizeof buffer;
    int32_t row[4] = {7, 7, 7, 7};
    uint64_t patterns[3] = {7, 7, 7};
    uint8_t classes[3] = {7, 7, 7};
    size_t places[8] = {7, 7, 7, 7, 7, 7, 7, 7};

    strictly(seg2_lenient_file_block_of(buffer, size, size + 1).strict);
    told_verdict("lenient over the buffer", seg2_lenient_check_of(buffer, size, size + 1).answer);
    told_trace("lenient trace -1", seg2_lenient_trace_block_of(buffer, size, length, -1).answer);
    told_count("lenient count of trace 1", seg2_lenient_string_count_of(buffer, size, length, 1).answer);
    told_string("lenient string past the last", seg2_lenient_string_of(buffer, size, length, 0, 2).answer);
    told_verdict("7 lenient places", seg2_lenient_strings_of(buffer, size, length, 0, places, 7).answer);
    printf("no lenient keyword: %u\n", (unsigned)seg2_lenient_keyword_of(buffer, size, length, 0, SEG2_LITERAL("")).answer.found);
    printf("asked in small letters: %u\n", (unsigned)seg2_lenient_keyword_of(buffer, size, length, 0, SEG2_LITERAL("stack")).answer.found);
    printf("no lenient value: %lu\n", (unsigned long)seg2_lenient_value_of(buffer, size, length, -1, SEG2_LITERAL("STACK")).answer.value_start);
    told_number("no lenient number", seg2_lenient_number_of(buffer, size, length, -1, SEG2_LITERAL("UNITS")).answer);
    told_double("no lenient double", seg2_lenient_double_of(buffer, size, length, -1, SEG2_LITERAL("STACK")).answer);
    told_location("no lenient location", seg2_lenient_location_of(buffer, size, length, 0, SEG2_LITERAL("UNITS")).answer);
    told_verdict("a lenient row of 4", seg2_lenient_integers_of(buffer, size, length, 0, row, 4).answer);
    told_verdict("lenient bits of trace 1", seg2_lenient_bits_of(buffer, size, length, 1, patterns, 3, classes, 3).answer);
    printf("row %d %lu %u\n", (int)row[0], (unsigned long)patterns[0], (unsigned)classes[0]);
    told_places(places);
}

/* document 02, section 11: a file that keeps the rules, then as older recorders have it, one habit after the other */
static void leniently(void) {
    const size_t size = sizeof buffer;
    const int32_t samples[3] = {1, -1, 256};
    const uint64_t doubles[2] = {0x7FF0000000000000u, 0x8000000000000000u};
    uint64_t patterns[2] = {7, 7};
    uint8_t classes[2] = {7, 7};
    seg2_length answer;
    size_t length = told_length("start", seg2_start_of(buffer, size, SEG2_LOW_FIRST, 2, SEG2_LITERAL("UNITS\tMETERS\n")));
    size_t strings;

    length = told_length("add", seg2_add_integers_of(buffer, size, length, SEG2_LITERAL("DELAY\t2\nSTACK\t4.50\n"), SEG2_FIXED_16, samples, 3));
    strings = seg2_trace_block_of(buffer, size, length, 0).start + 32;
    printf("strings at %lu\n", (unsigned long)strings);
    leniently_all(length);

    /* small letters, and the first keyword again: offset, keyword, space, value and terminator are 10 bytes */
    memcpy(buffer + strings + 2, "stack", 5);
    memcpy(buffer + strings + 12, "Stack", 5);
    memcpy(before, buffer, size);
    leniently_all(length);
    leniently_wrongly(length);
    printf("%s\n", memcmp(before, buffer, size) == 0 ? "unchanged" : "changed");
    told_length("no addition", seg2_add_integers_of(buffer, size, length, SEG2_LITERAL(""), SEG2_FIXED_16, samples, 3));

    /* what is not forgiven, behind what is: the strict row is the earlier one */
    buffer[strings + 12] = 0xE9;
    leniently_all(length);
    buffer[strings + 12] = 'S';

    /* no end mark: the second string takes the 2 bytes of the mark and the 3 behind it, so it ends where the block does */
    memcpy(buffer + strings + 2, "DELAY", 5);
    memcpy(buffer + strings + 12, "STACK", 5);
    buffer[strings + 10] = 18;
    memcpy(buffer + strings + 22, "00000", 6);
    leniently_all(length);

    /* floats, in a file that is read leniently alone */
    length = told_length("start", seg2_start_of(buffer, size, SEG2_HIGH_FIRST, 1, SEG2_LITERAL("UNITS\tMETERS\n")));
    seg2_add_bits(&answer, buffer, size, length, SEG2_LITERAL(""), SEG2_FLOAT_64, doubles, 2);
    length = told_length("add", answer);
    buffer[38] = 'u';
    {
        seg2_lenient_verdict verdict = seg2_lenient_bits_of(buffer, size, length, 0, patterns, 2, classes, 2);
        strictly(verdict.strict);
        told_verdict("lenient bits", verdict.answer);
        told_patterns(patterns, classes);
    }
}

/* A number that a user typed, and its text as a sheet gets it: with its own decimals. No file is needed for either. */
static void numbers_and_texts(void) {
    const char *const typed[] = {"0.250", "12", "2.50E-3", "-00.0", "0,25", "1E100", "", "-1.23456789012345678E-99"};
    uint8_t text[SEG2_MAXIMUM_NUMBER_TEXT + 1];
    struct seg2_number number;
    seg2_length answer;
    size_t i;

    for (i = 0; i < sizeof typed / sizeof typed[0]; i++) {
        seg2_read_number(&number, typed[i], strlen(typed[i]));
        told_number("typed", number);
        if (number.number != 0) {
            continue;
        }
        memset(text, '_', sizeof text);
        seg2_write_number(&answer, text, sizeof text, number.minus, number.coefficient, number.power, number.decimals);
        told_length("text", answer);
        printf("'%.*s' then %c\n", (int)answer.length, (const char *)text, text[answer.length]);
    }
    memset(text, '_', sizeof text);
    told_length("zero with minus", seg2_write_number_of(text, sizeof text, 1, 0, 0, 0));
    told_length("19 digits", seg2_write_number_of(text, sizeof text, 0, 1000000000000000000u, 0, 0));
    told_length("18 decimals", seg2_write_number_of(text, sizeof text, 0, 5, 0, 18));
    told_length("E100", seg2_write_number_of(text, sizeof text, 0, 5, 100, 0));
    told_length("an exact sum", seg2_write_number_of(text, sizeof text, 0, 5, INT32_MIN, 0x80000000u));
    told_length("no room", seg2_write_number_of(text, 4, 0, 250, -3, 3));
    told_length("no bytes", seg2_write_number_of(text, 0, 0, 7, 0, 0));
    for (i = 0; i < sizeof text && text[i] == '_'; i++) {
    }
    printf("%s\n", i == sizeof text ? "unchanged" : "changed");
    told_length("exactly room", seg2_write_number_of(text, 5, 0, 250, -3, 3));
    told_length("any minus", seg2_write_number_of(text, sizeof text, 4294967295u, 7, 0, 0));
    printf("%.6s\n", (const char *)text);
    told_number("read", seg2_read_number_of(text, 2));
}

/* document 02, section 7: the first trace chooses whether traces have channel numbers */
static void channels(void) {
    const size_t size = sizeof buffer;
    const int32_t samples[2] = {1, 2};
    size_t length = told_length("start", seg2_start_of(buffer, size, SEG2_LOW_FIRST, 2, SEG2_LITERAL("CHANNEL_NUMBER\tany\n")));
    size_t strings;

    told_length("0 as the first", seg2_add_integers_of(buffer, size, length, SEG2_LITERAL("CHANNEL_NUMBER\t0\n"), SEG2_FIXED_16, samples, 2));
    length = told_length("channel 1", seg2_add_integers_of(buffer, size, length, SEG2_LITERAL("CHANNEL_NUMBER\t1\n"), SEG2_FIXED_16, samples, 2));
    memcpy(before, buffer, size);
    told_length("none", seg2_add_integers_of(buffer, size, length, SEG2_LITERAL("STACK\t1\n"), SEG2_FIXED_16, samples, 2));
    told_length("1.0", seg2_add_integers_of(buffer, size, length, SEG2_LITERAL("CHANNEL_NUMBER\t1.0\n"), SEG2_FIXED_16, samples, 2));
    printf("%s\n", memcmp(before, buffer, size) == 0 ? "unchanged" : "changed");
    length = told_length("channel 2", seg2_add_integers_of(buffer, size, length, SEG2_LITERAL("CHANNEL_NUMBER\t2\n"), SEG2_FIXED_16, samples, 2));
    told_verdict("both", seg2_check(buffer, size, length));
    /* the value's only digit: offset, keyword and space stand before it */
    strings = seg2_trace_block_of(buffer, size, length, 1).start + 32;
    buffer[strings + 2 + 15] = '0';
    {
        seg2_verdict v = seg2_check(buffer, size, length);
        printf("%u in trace %d where its strings start %d\n", (unsigned)v.number, (int)v.part, v.place == strings);
    }
}

/* the room of a start and of an addition, asked beforehand: exactly that much is enough */
static void rooms(void) {
    const int32_t samples[3] = {1, -1, 256};
    size_t room, length;
    seg2_length answer;

    seg2_start_size(&answer, SEG2_LOW_FIRST, 1, SEG2_LITERAL("UNITS\tMETERS\n"));
    room = told_length("a start needs", answer);
    told_length("no slots", seg2_start_size_of(SEG2_LOW_FIRST, 0, SEG2_LITERAL("")));
    told_length("a bad second line", seg2_start_size_of(SEG2_LOW_FIRST, 1, SEG2_LITERAL("A\t1\nB 2\n")));
    told_length("a byte less", seg2_start_of(buffer, room - 1, SEG2_LOW_FIRST, 1, SEG2_LITERAL("UNITS\tMETERS\n")));
    length = told_length("a start", seg2_start_of(buffer, room, SEG2_LOW_FIRST, 1, SEG2_LITERAL("UNITS\tMETERS\n")));
    memcpy(before, buffer, sizeof buffer);
    /* the buffer is the file and no byte more */
    seg2_add_size(&answer, buffer, length, length, SEG2_LITERAL("STACK\t1\n"), SEG2_FIXED_16, 3);
    room = told_length("an addition needs", answer);
    told_length("code 6", seg2_add_size_of(buffer, length, length, SEG2_LITERAL(""), 6, 3));
    told_length("5 samples in fours", seg2_add_size_of(buffer, length, length, SEG2_LITERAL(""), SEG2_FLOAT_20, 5));
    told_length("more than a file may have", seg2_add_size_of(buffer, length, length, SEG2_LITERAL(""), SEG2_FLOAT_64, SIZE_MAX));
    told_length("the largest", seg2_add_size_of(buffer, length, length, SEG2_LITERAL(""), SEG2_FIXED_32, 16777193));
    told_length("a sample more", seg2_add_size_of(buffer, length, length, SEG2_LITERAL(""), SEG2_FIXED_32, 16777194));
    told_length("no file", seg2_add_size_of(buffer, length, 31, SEG2_LITERAL(""), SEG2_FIXED_16, 3));
    printf("%s\n", memcmp(before, buffer, sizeof buffer) == 0 ? "unchanged" : "changed");
    told_length("a byte less", seg2_add_integers_of(buffer, room - 1, length, SEG2_LITERAL("STACK\t1\n"), SEG2_FIXED_16, samples, 3));
    length = told_length("an addition", seg2_add_integers_of(buffer, room, length, SEG2_LITERAL("STACK\t1\n"), SEG2_FIXED_16, samples, 3));
    told_length("no slot", seg2_add_size_of(buffer, room, length, SEG2_LITERAL(""), SEG2_FIXED_16, 3));
}

int main(void) {
    const size_t size = sizeof buffer;
    const int32_t samples[3] = {1, -1, 256};
    const int32_t groups[4] = {100000, -32769, 1073741823, 20};
    const int32_t large[4] = {0, 0, 1073741824, 0};
    const uint64_t doubles[2] = {0x7FF0000000000000u, 0x8000000000000000u};
    int32_t row[4] = {7, 7, 7, 7};
    uint64_t patterns[2] = {7, 7};
    uint8_t classes[2] = {7, 7};
    seg2_length answer;
    size_t length;
    uint32_t i;

    /* document 01's example */
    memset(buffer, 0xEE, size);
    seg2_start(&answer, buffer, size, SEG2_LOW_FIRST, 1, SEG2_LITERAL("UNITS\tMETERS\n"));
    length = told_length("start", answer);
    told_verdict("check of a start", seg2_check(buffer, size, length));
    seg2_add_integers(&answer, buffer, size, length, SEG2_LITERAL("STACK\t1\n"), SEG2_FIXED_16, samples, 3);
    length = told_length("add", answer);
    printf("past the end %02X\n", (unsigned)buffer[length]);
    memcpy(before, buffer, size);
    ask(length);
    ask_wrongly(length);
    quickly(length);

    /* refused writers change nothing */
    told_length("no slot", seg2_add_integers_of(buffer, size, length, SEG2_LITERAL(""), SEG2_FIXED_16, samples, 3));
    told_length("no order", seg2_start_of(buffer, size, 2, 1, SEG2_LITERAL("")));
    told_length("a bad second line", seg2_start_of(buffer, size, 0, 1, SEG2_LITERAL("A\t1\nB 2\n")));
    told_length("a line out of order", seg2_start_of(buffer, size, 0, 1, SEG2_LITERAL("B\t1\nA\t2\n")));
    told_length("no room", seg2_start_of(buffer, 39, 0, 1, SEG2_LITERAL("")));
    printf("%s\n", memcmp(before, buffer, size) == 0 ? "unchanged" : "changed");

    /* high byte first, codes 3 and 5, decimals of a location */
    length = told_length("start", seg2_start_of(buffer, size, SEG2_HIGH_FIRST, 3, SEG2_LITERAL("")));
    length = told_length("add 3", seg2_add_integers_of(buffer, size, length, SEG2_LITERAL("RECEIVER_LOCATION\t1 -2.5 3.00\n"), SEG2_FLOAT_20, groups, 4));
    seg2_add_bits(&answer, buffer, size, length, SEG2_LITERAL(""), SEG2_FLOAT_64, doubles, 2);
    length = told_length("add 5", answer);
    told_length("too large", seg2_add_integers_of(buffer, size, length, SEG2_LITERAL(""), SEG2_FLOAT_20, large, 4));
    told_length("bits as code 1", seg2_add_bits_of(buffer, size, length, SEG2_LITERAL(""), SEG2_FIXED_16, doubles, 2));
    told_verdict("integers 3", seg2_integers(buffer, size, length, 0, row, 4));
    printf("row %d %d %d %d\n", (int)row[0], (int)row[1], (int)row[2], (int)row[3]);
    told_verdict("bits", seg2_bits(buffer, size, length, 1, patterns, 2, classes, 2));
    told_patterns(patterns, classes);
    memset(patterns, 7, sizeof patterns);
    memset(classes, 7, sizeof classes);
    told_verdict("quick bits", seg2_quick_bits(buffer, size, length, 1, patterns, 2, classes, 2));
    told_patterns(patterns, classes);
    told_count("no quick strings", seg2_quick_string_count_of(buffer, size, length, 1));
    told_location("location", seg2_location_of(buffer, size, length, 0, SEG2_LITERAL("RECEIVER_LOCATION")));
    told_location("quick location", seg2_quick_location_of(buffer, size, length, 0, SEG2_LITERAL("RECEIVER_LOCATION")));
    numbers_and_texts();

    /* a lower-case letter in trace 0's keyword, in words */
    {
        size_t offset = seg2_trace_block_of(buffer, size, length, 0).start + 32;
        seg2_verdict v;
        buffer[offset + 2] = 'r';
        v = seg2_check(buffer, size, length);
        printf("%u in trace %d at its first string %d: %s\n", (unsigned)v.number, (int)v.part, v.place == offset, seg2_text(v.number));
    }
    channels();
    leniently();
    rooms();
    for (i = 0; i < 100; i++) {
        printf("%u %s\n", (unsigned)i, seg2_text(i));
    }
    return 0;
}
