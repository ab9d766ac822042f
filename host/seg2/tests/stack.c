/* Every exported function on a stack of 32 KiB with a guard page under it. A thread of its own would have more: the smallest that pthreads gives is
 * 128 KiB on some machines. So the stack is a mapped region that a context switches to, painted before each call; what is no longer painted was used.
 *
 *   stack            prints each function and the most bytes that it used, on a small file and on a large one; and what a call of nothing uses
 *   stack samples    prints the bytes that seg2_integers used on a trace of each code of integers, in either order
 *   stack measured   a function that uses 16 KiB, to see that the paint measures
 *   stack deep       a function that uses more than there is, which has to end the program by a signal */
#define _GNU_SOURCE
#include "seg2.h"

#include <stdio.h>
#include <stdlib.h>
#include <string.h>
#include <sys/mman.h>
#include <sys/resource.h>
#include <ucontext.h>
#include <unistd.h>

enum { STACK = 32 * 1024, PAINT = 0xA5, TRACES = 1500, SAMPLES = 4000, STRINGS = 3500, LARGE = 16 * 1024 * 1024 };

static uint8_t *region; /* the lowest byte of the stack */
static ucontext_t caller, callee;
static void (*asked)(void);

static void entry(void) {
    asked();
}

/* Runs a call on the small stack and answers how many of its bytes were used. */
static size_t used_by(void (*call)(void)) {
    size_t clean = 0;
    memset(region, PAINT, STACK);
    asked = call;
    if (getcontext(&callee) != 0) {
        exit(3);
    }
    callee.uc_stack.ss_sp = region;
    callee.uc_stack.ss_size = STACK;
    callee.uc_link = &caller;
    makecontext(&callee, entry, 0);
    if (swapcontext(&caller, &callee) != 0) {
        exit(3);
    }
    while (clean < STACK && region[clean] == PAINT) {
        clean++;
    }
    return STACK - clean;
}

/* The lent memory is not on the small stack. */
static uint8_t *buffer;
static size_t size, length, sheet_size;
static uint8_t sheet[70000];
static int32_t integers[SAMPLES];
static uint64_t patterns[SAMPLES];
static uint8_t classes[SAMPLES];
static size_t samples;
static size_t places[4 * (STRINGS + 1)], lenient_places[4 * (STRINGS + 1)];
static uint32_t order = SEG2_HIGH_FIRST, code_of_integers, code_of_bits;
static int32_t part;
static const uint8_t key[] = "NOTE";
static seg2_verdict verdict;
static seg2_file file;
static seg2_trace trace;
static seg2_count count;
static struct seg2_string string;
static struct seg2_keyword keyword;
static struct seg2_value value;
static struct seg2_number number;
static struct seg2_double twice;
static struct seg2_location location;
static seg2_verdict quick_verdict;
static seg2_trace quick_trace;
static seg2_count quick_count;
static struct seg2_string quick_string;
static struct seg2_keyword quick_keyword;
static struct seg2_value quick_value;
static struct seg2_number quick_number;
static struct seg2_double quick_twice;
static struct seg2_location quick_location;
static seg2_lenient_verdict lenient_verdict;
static seg2_lenient_file lenient_file;
static seg2_lenient_trace lenient_trace;
static seg2_lenient_count lenient_count;
static struct seg2_lenient_string lenient_string;
static struct seg2_lenient_keyword lenient_keyword;
static struct seg2_lenient_value lenient_value;
static struct seg2_lenient_number lenient_number;
static struct seg2_lenient_double lenient_twice;
static struct seg2_lenient_location lenient_location;
static seg2_length written;
/* the number whose text has the most bytes, and its text as a user types it: every part of a number is there */
static const uint8_t typed[] = "-1.23456789012345678E-99";
static struct seg2_number read_back;
static uint8_t text[SEG2_MAXIMUM_NUMBER_TEXT];
static seg2_length text_length;

static void call_nothing(void) {}
static void call_check(void) { verdict = seg2_check(buffer, size, length); }
static void call_file_block(void) { seg2_file_block(&file, buffer, size, length); }
static void call_trace_block(void) { seg2_trace_block(&trace, buffer, size, length, 0); }
static void call_string_count(void) { seg2_string_count(&count, buffer, size, length, part); }
static void call_string(void) { seg2_string(&string, buffer, size, length, part, count.count - 1); }
static void call_strings(void) { verdict = seg2_strings(buffer, size, length, part, places, 4 * count.count); }
static void call_keyword(void) { seg2_keyword(&keyword, buffer, size, length, part, key, 4); }
static void call_value(void) { seg2_value(&value, buffer, size, length, part, key, 4); }
static void call_number(void) { seg2_number(&number, buffer, size, length, part, key, 4); }
static void call_double(void) { seg2_double(&twice, buffer, size, length, part, key, 4); }
static void call_location(void) { seg2_location(&location, buffer, size, length, part, key, 4); }
static void call_integers(void) { verdict = seg2_integers(buffer, size, length, 0, integers, samples); }
static void call_bits(void) { verdict = seg2_bits(buffer, size, length, 1, patterns, samples, classes, samples); }
static void call_quick_trace_block(void) { seg2_quick_trace_block(&quick_trace, buffer, size, length, 0); }
static void call_quick_string_count(void) { seg2_quick_string_count(&quick_count, buffer, size, length, 0); }
static void call_quick_string(void) { seg2_quick_string(&quick_string, buffer, size, length, 0, quick_count.count - 1); }
static void call_quick_strings(void) { quick_verdict = seg2_quick_strings(buffer, size, length, 0, places, 4 * quick_count.count); }
static void call_quick_keyword(void) { seg2_quick_keyword(&quick_keyword, buffer, size, length, 0, key, 4); }
static void call_quick_value(void) { seg2_quick_value(&quick_value, buffer, size, length, 0, key, 4); }
static void call_quick_number(void) { seg2_quick_number(&quick_number, buffer, size, length, 0, key, 4); }
static void call_quick_double(void) { seg2_quick_double(&quick_twice, buffer, size, length, 0, key, 4); }
static void call_quick_location(void) { seg2_quick_location(&quick_location, buffer, size, length, 0, key, 4); }
static void call_quick_integers(void) { quick_verdict = seg2_quick_integers(buffer, size, length, 0, integers, samples); }
static void call_quick_bits(void) { quick_verdict = seg2_quick_bits(buffer, size, length, 1, patterns, samples, classes, samples); }
static void call_lenient_check(void) { seg2_lenient_check(&lenient_verdict, buffer, size, length); }
static void call_lenient_file_block(void) { seg2_lenient_file_block(&lenient_file, buffer, size, length); }
static void call_lenient_trace_block(void) { seg2_lenient_trace_block(&lenient_trace, buffer, size, length, 0); }
static void call_lenient_string_count(void) { seg2_lenient_string_count(&lenient_count, buffer, size, length, part); }
static void call_lenient_string(void) { seg2_lenient_string(&lenient_string, buffer, size, length, part, lenient_count.answer.count - 1); }
static void call_lenient_strings(void) {
    seg2_lenient_strings(&lenient_verdict, buffer, size, length, part, lenient_places, 4 * lenient_count.answer.count);
}
static void call_lenient_keyword(void) { seg2_lenient_keyword(&lenient_keyword, buffer, size, length, part, key, 4); }
static void call_lenient_value(void) { seg2_lenient_value(&lenient_value, buffer, size, length, part, key, 4); }
static void call_lenient_number(void) { seg2_lenient_number(&lenient_number, buffer, size, length, part, key, 4); }
static void call_lenient_double(void) { seg2_lenient_double(&lenient_twice, buffer, size, length, part, key, 4); }
static void call_lenient_location(void) { seg2_lenient_location(&lenient_location, buffer, size, length, part, key, 4); }
static void call_lenient_integers(void) { seg2_lenient_integers(&lenient_verdict, buffer, size, length, 0, integers, samples); }
static void call_lenient_bits(void) { seg2_lenient_bits(&lenient_verdict, buffer, size, length, 1, patterns, samples, classes, samples); }
static void call_read_number(void) { seg2_read_number(&read_back, typed, sizeof typed - 1); }
static void call_write_number(void) { seg2_write_number(&text_length, text, sizeof text, 1, 123456789012345678u, -116, 17); }
static void call_start_size(void) { seg2_start_size(&written, order, TRACES, sheet, sheet_size); }
static void call_add_size(void) { seg2_add_size(&written, buffer, size, length, sheet, sheet_size, code_of_bits, samples); }
static void call_start(void) { seg2_start(&written, buffer, size, order, TRACES, sheet, sheet_size); }
static void call_add_integers(void) { seg2_add_integers(&written, buffer, size, length, sheet, sheet_size, code_of_integers, integers, samples); }
static void call_add_bits(void) { seg2_add_bits(&written, buffer, size, length, sheet, sheet_size, code_of_bits, patterns, samples); }

static struct {
    const char *name;
    void (*call)(void);
    size_t most;
} all[] = {
    {"seg2_start", call_start, 0},
    {"seg2_add_integers", call_add_integers, 0},
    {"seg2_add_bits", call_add_bits, 0},
    {"seg2_start_size", call_start_size, 0},
    {"seg2_add_size", call_add_size, 0},
    {"seg2_check", call_check, 0},
    {"seg2_file_block", call_file_block, 0},
    {"seg2_trace_block", call_trace_block, 0},
    {"seg2_string_count", call_string_count, 0},
    {"seg2_string", call_string, 0},
    {"seg2_strings", call_strings, 0},
    {"seg2_keyword", call_keyword, 0},
    {"seg2_value", call_value, 0},
    {"seg2_number", call_number, 0},
    {"seg2_double", call_double, 0},
    {"seg2_location", call_location, 0},
    {"seg2_integers", call_integers, 0},
    {"seg2_bits", call_bits, 0},
    {"seg2_quick_trace_block", call_quick_trace_block, 0},
    {"seg2_quick_string_count", call_quick_string_count, 0},
    {"seg2_quick_string", call_quick_string, 0},
    {"seg2_quick_strings", call_quick_strings, 0},
    {"seg2_quick_keyword", call_quick_keyword, 0},
    {"seg2_quick_value", call_quick_value, 0},
    {"seg2_quick_number", call_quick_number, 0},
    {"seg2_quick_double", call_quick_double, 0},
    {"seg2_quick_location", call_quick_location, 0},
    {"seg2_quick_integers", call_quick_integers, 0},
    {"seg2_quick_bits", call_quick_bits, 0},
    {"seg2_lenient_check", call_lenient_check, 0},
    {"seg2_lenient_file_block", call_lenient_file_block, 0},
    {"seg2_lenient_trace_block", call_lenient_trace_block, 0},
    {"seg2_lenient_string_count", call_lenient_string_count, 0},
    {"seg2_lenient_string", call_lenient_string, 0},
    {"seg2_lenient_strings", call_lenient_strings, 0},
    {"seg2_lenient_keyword", call_lenient_keyword, 0},
    {"seg2_lenient_value", call_lenient_value, 0},
    {"seg2_lenient_number", call_lenient_number, 0},
    {"seg2_lenient_double", call_lenient_double, 0},
    {"seg2_lenient_location", call_lenient_location, 0},
    {"seg2_lenient_integers", call_lenient_integers, 0},
    {"seg2_lenient_bits", call_lenient_bits, 0},
    {"seg2_read_number", call_read_number, 0},
    {"seg2_write_number", call_write_number, 0},
};

static void must(int holds, const char *what) {
    if (!holds) {
        fprintf(stderr, "%s\n", what);
        exit(4);
    }
}

static void run(size_t i) {
    size_t used = used_by(all[i].call);
    if (used > all[i].most) {
        all[i].most = used;
    }
}

/* The lenient answers of what `whole` has written, with this strict row beside each. */
static void read_leniently(uint32_t strict, size_t traces, size_t strings) {
    must(lenient_verdict.answer.number == 0 && lenient_verdict.strict.number == strict, "another lenient verdict");
    must(lenient_file.answer.trace_count == traces && lenient_file.strict.number == strict, "another block of the file, read leniently");
    must(lenient_trace.answer.sample_count == samples && lenient_trace.strict.number == strict, "another block, read leniently");
    must(lenient_count.answer.count == strings + 1 && lenient_count.strict.number == strict, "another number of strings, counted leniently");
    must(lenient_string.answer.found == 1 && lenient_string.strict.number == strict, "no last string, read leniently");
    must(lenient_places[4 * strings] == lenient_string.answer.key_start, "another last keyword in the lenient row");
    must(lenient_places[4 * strings + 3] == 3, "another last value in the lenient row");
    must(lenient_keyword.answer.found == 1 && lenient_keyword.strict.number == strict, "no NOTE found leniently");
    must(lenient_value.answer.value_length == 3 && lenient_value.strict.number == strict, "another NOTE, read leniently");
    must(lenient_number.answer.coefficient == 15 && lenient_number.strict.number == strict, "another number, read leniently");
    must(lenient_twice.answer.value == 1.5 && lenient_twice.strict.number == strict, "another double, read leniently");
    must(lenient_location.answer.x == 1.5 && lenient_location.strict.number == strict, "another location, read leniently");
}

/* A file with so many traces and samples, sheets of so many strings: written, then asked everything; the lenient questions also where its
 * first keyword begins with a small letter, so that the strict check stops there and the lenient one goes on. */
static void whole(uint32_t of_integers, uint32_t of_bits, size_t traces, size_t samples_each, size_t strings) {
    const size_t first = 32 + 4 * TRACES + 2; /* where the keyword of the file's first string begins */
    size_t i;
    samples = samples_each;
    code_of_integers = of_integers;
    code_of_bits = of_bits;
    sheet_size = 0;
    for (i = 0; i < strings; i++) {
        sheet_size += (size_t)sprintf((char *)sheet + sheet_size, "K%05u\t%u\n", (unsigned)i, (unsigned)i);
    }
    sheet_size += (size_t)sprintf((char *)sheet + sheet_size, "NOTE\t1.5\n");
    for (i = 0; i < samples; i++) {
        /* what every code of the entry can hold */
        integers[i] = (int32_t)(i * 7919 % 65536) - 32768;
        patterns[i] = i * 0x01234567u % 0x100000000u;
    }
    run(0);
    must(written.number == 0, "the start is refused");
    length = written.length;
    for (i = 0; i < traces; i++) {
        /* the first trace has the whole sheet, the others one string */
        if (i == 1) {
            memcpy(sheet, "NOTE\t1.5\n", 9);
            sheet_size = 9;
        }
        run(i % 2 == 0 ? 1 : 2);
        must(written.number == 0, "an addition is refused");
        length = written.length;
    }
    for (part = -1; part <= 0; part++) {
        for (i = 3; i < sizeof all / sizeof all[0]; i++) {
            run(i);
            must(verdict.number == 0 && quick_verdict.number == 0, "refused");
        }
        must(count.count == strings + 1 && string.found == 1, "another number of strings");
        must(quick_count.count == strings + 1 && quick_string.found == 1, "another number of strings, counted quickly");
        must(places[4 * strings] == quick_string.key_start && places[4 * strings + 3] == 3, "another last string in the row");
        must(keyword.found == 1 && value.value_length == 3, "no NOTE");
        must(quick_keyword.found == 1 && quick_value.value_length == 3, "no NOTE found quickly");
        must(number.coefficient == 15 && twice.value == 1.5 && location.x == 1.5, "another number");
        must(quick_number.coefficient == 15 && quick_twice.value == 1.5 && quick_location.x == 1.5, "another number, read quickly");
        must(trace.sample_count == samples && file.trace_count == traces, "another block");
        must(quick_trace.sample_count == samples && quick_trace.start == trace.start, "another block, read quickly");
        must(read_back.coefficient == 123456789012345678u && read_back.power == -116 && read_back.decimals == 17, "another number was typed");
        must(text_length.length == sizeof typed - 1 && memcmp(text, typed, sizeof text) == 0, "another text was written");
        read_leniently(SEG2_ACCEPTED, traces, strings);
        buffer[first] = 'k';
        for (i = 3; i < sizeof all / sizeof all[0]; i++) {
            if (strncmp(all[i].name, "seg2_lenient_", 13) == 0) {
                run(i);
            }
        }
        buffer[first] = 'K';
        read_leniently(SEG2_CHARACTER, traces, strings);
    }
}

/* The samples of a trace of a code, in one order, behind another trace: written, read, and how much stack the reading used. */
static size_t read_samples(uint32_t code, uint32_t in_order) {
    size_t i, used;
    order = in_order;
    code_of_integers = code;
    samples = SAMPLES;
    sheet_size = (size_t)sprintf((char *)sheet, "NOTE\t1.5\n");
    for (i = 0; i < samples; i++) {
        integers[i] = (int32_t)(i * 7919 % 65536) - 32768; /* code 3 holds these, the least of them but for its last bit */
    }
    call_start();
    must(written.number == 0, "the start is refused");
    for (i = 0; i < 2; i++) {
        length = written.length;
        call_add_integers();
        must(written.number == 0, "an addition is refused");
    }
    length = written.length;
    memset(integers, 0x55, sizeof integers);
    used = used_by(call_integers);
    must(verdict.number == 0, "the samples are refused");
    for (i = 0; i < samples; i++) {
        must(integers[i] == (int32_t)(i * 7919 % 65536) - 32768, "another sample");
    }
    return used;
}

/* Uses at least so many KiB. */
static unsigned deep(unsigned kib) {
    volatile uint8_t room[1024];
    room[0] = (uint8_t)kib;
    room[1023] = (uint8_t)(kib >> 1);
    return kib == 1 ? room[0] : deep(kib - 1) + room[0] + room[1023];
}

static volatile unsigned sum;
static void use_16_kib(void) { sum = deep(16); }
static void use_too_much(void) { sum = deep(64); }

int main(int words, char **word) {
    size_t page = (size_t)sysconf(_SC_PAGESIZE);
    uint8_t *mapped = (uint8_t *)mmap(NULL, page + STACK, PROT_READ | PROT_WRITE, MAP_PRIVATE | MAP_ANONYMOUS, -1, 0);
    size_t i;
    must(mapped != (uint8_t *)MAP_FAILED && mprotect(mapped, page, PROT_NONE) == 0, "no stack");
    region = mapped + page;
    if (words == 2 && strcmp(word[1], "measured") == 0) {
        printf("%lu\n", (unsigned long)used_by(use_16_kib));
        return 0;
    }
    if (words == 2 && strcmp(word[1], "deep") == 0) {
        struct rlimit none = {0, 0};
        must(setrlimit(RLIMIT_CORE, &none) == 0, "no limit"); /* its end is wanted, its remains are not */
        printf("%lu\n", (unsigned long)used_by(use_too_much));
        return 0;
    }
    size = LARGE;
    buffer = (uint8_t *)malloc(size);
    must(buffer != NULL, "no memory");
    if (words == 2 && strcmp(word[1], "samples") == 0) {
        uint32_t code;
        for (code = SEG2_FIXED_16; code <= SEG2_FLOAT_20; code++) {
            printf("%u low %lu\n", (unsigned)code, (unsigned long)read_samples(code, SEG2_LOW_FIRST));
            printf("%u high %lu\n", (unsigned)code, (unsigned long)read_samples(code, SEG2_HIGH_FIRST));
        }
        free(buffer);
        return 0;
    }
    whole(SEG2_FIXED_16, SEG2_FLOAT_32, 2, 4, 1);
    whole(SEG2_FIXED_32, SEG2_FLOAT_64, 40, SAMPLES, STRINGS);
    whole(SEG2_FLOAT_20, SEG2_FLOAT_32, 40, SAMPLES, STRINGS);
    whole(SEG2_FLOAT_20, SEG2_FLOAT_64, TRACES, 8, 3);
    for (i = 0; i < sizeof all / sizeof all[0]; i++) {
        printf("%s %lu\n", all[i].name, (unsigned long)all[i].most);
    }
    printf("nothing %lu\n", (unsigned long)used_by(call_nothing));
    free(buffer);
    return 0;
}
