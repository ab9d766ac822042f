/* The native side of wasinthao.seg2.Seg2: each function takes what Java lends, calls its namesake of seg2.h, and hands the answer back as a row of
 * longs: number, part, place, then the answer's fields in the header's order (doubles as their bits); behind a lenient answer the strict verdict's
 * number, part and place.
 *
 * The Java side has looked at what it was given. Here stands what only this side can see: that memory can be reached, is aligned, does not overlap,
 * and that no size goes past what there is. What is not so becomes an IllegalArgumentException before the library is called. An exception that the
 * machine raises (no memory for an array's copy) stays pending and is Java's to meet. There is no state. */
#include <jni.h>
#include <stdbool.h>
#include <stdint.h>
#include <string.h>

#include "seg2.h"

_Static_assert(sizeof(size_t) == 8, "size_t has 64 bits: the library is for 64-bit machines");
_Static_assert(sizeof(jint) == sizeof(int32_t) && sizeof(jlong) == sizeof(uint64_t) && sizeof(jbyte) == 1, "Java's numbers are the library's");

#define NATIVE(type, name) JNIEXPORT type JNICALL Java_wasinthao_seg2_Seg2_##name
#define UNUSED __attribute__((unused))

static void misuse(JNIEnv *env, const char *sentence) {
    jclass kind = (*env)->FindClass(env, "java/lang/IllegalArgumentException");
    if (kind != NULL) { /* else FindClass has left an exception of its own */
        (*env)->ThrowNew(env, kind, sentence);
    }
}

/* ---- what Java lends */

typedef struct lent {
    void *at;
    size_t size; /* in bytes */
} lent;

/* An address for memory of no bytes, which has to be none but null. Nothing is read or written there. */
static const uint64_t nowhere = 0;

/* The first `count` elements, of `width` bytes each, of a direct buffer. */
static bool direct(JNIEnv *env, jobject buffer, jint count, size_t width, lent *l) {
    void *at = buffer == NULL ? NULL : (*env)->GetDirectBufferAddress(env, buffer);
    jlong capacity = buffer == NULL ? -1 : (*env)->GetDirectBufferCapacity(env, buffer);
    if (count < 0 || capacity < count || (at == NULL && count > 0)) {
        misuse(env, "the memory of a direct buffer cannot be reached, or it has less than its limit says");
        return false;
    }
    if ((uintptr_t)at % width != 0) {
        misuse(env, "a row does not start at a multiple of its element's size in memory");
        return false;
    }
    l->at = at == NULL ? (void *)(uintptr_t)&nowhere : at;
    l->size = (size_t)count * width;
    return true;
}

/* What is written may be nothing else that is lent. */
static bool apart(JNIEnv *env, lent a, lent b) {
    uintptr_t x = (uintptr_t)a.at, y = (uintptr_t)b.at;
    if (a.size > 0 && b.size > 0 && x < y + b.size && y < x + a.size) {
        misuse(env, "the row lies in the buffer's own memory");
        return false;
    }
    return true;
}

/* The bytes of a keyword, a sheet or a number's text; to be given back by `returned`. */
static bool bytes(JNIEnv *env, jbyteArray array, lent *l) {
    if (array == NULL) {
        misuse(env, "a keyword, sheet or text is null");
        return false;
    }
    l->size = (size_t)(*env)->GetArrayLength(env, array);
    l->at = (*env)->GetByteArrayElements(env, array, NULL);
    return l->at != NULL;
}

static void returned(JNIEnv *env, jbyteArray array, lent l) {
    (*env)->ReleaseByteArrayElements(env, array, l.at, JNI_ABORT); /* it was only read */
}

/* ---- what Java gets */

/* Whether the row for the answer has exactly so many places; asked before the library is called, so that no answer is lost. */
static bool places(JNIEnv *env, jlongArray answer, jsize count) {
    if (answer == NULL || (*env)->GetArrayLength(env, answer) != count) {
        misuse(env, "the row for the answer has another length");
        return false;
    }
    return true;
}

static jlong bits_of(double value) {
    jlong bits;
    memcpy(&bits, &value, sizeof bits);
    return bits;
}

/* The numbers of each kind of answer. */
#define VERDICT(a) (a).number, (a).part, (jlong)(a).place
#define FILE_BLOCK(a)                                                                                                                                \
    VERDICT(a), (a).order, (jlong)(a).pointer_room, (jlong)(a).trace_count, (jlong)(a).string_terminator_size, (jlong)(a).line_terminator_size
#define TRACE_BLOCK(a) VERDICT(a), (jlong)(a).start, (jlong)(a).block_size, (jlong)(a).data_size, (jlong)(a).sample_count, (a).format_code
#define COUNT(a) VERDICT(a), (jlong)(a).count
#define STRING(a) VERDICT(a), (a).found, (jlong)(a).key_start, (jlong)(a).key_length, (jlong)(a).value_start, (jlong)(a).value_length
#define KEYWORD(a) VERDICT(a), (a).found
#define VALUE(a) VERDICT(a), (jlong)(a).value_start, (jlong)(a).value_length
#define NUMBER(a) VERDICT(a), (a).minus, (a).power, (jlong)(a).coefficient, (a).decimals
#define DOUBLE(a) VERDICT(a), bits_of((a).value)
#define LOCATION(a) VERDICT(a), (a).count, bits_of((a).x), bits_of((a).y), bits_of((a).z), (a).x_decimals, (a).y_decimals, (a).z_decimals
#define LENGTH(a) VERDICT(a), (jlong)(a).length
/* Of a lenient answer: those of the kind that it has, then the strict verdict's. */
#define LENIENT(kind, a) kind((a).answer), VERDICT((a).strict)

/* They as a row, how many they are (nothing of the answer is read for that), and the row handed to Java as `answer`. */
#define ROW(...) ((const jlong[]){__VA_ARGS__})
#define PLACES(...) ((jsize)(sizeof ROW(__VA_ARGS__) / sizeof(jlong)))
#define TELL(...) (*env)->SetLongArrayRegion(env, answer, 0, PLACES(__VA_ARGS__), ROW(__VA_ARGS__))

/* ---- questions */

NATIVE(jstring, nativeText)(JNIEnv *env, UNUSED jclass self, jint number) {
    return (*env)->NewStringUTF(env, seg2_text((uint32_t)number));
}

/* A question, its quick form and its lenient form differ in the function and in what it answers, `a`; the part of a quick one is a trace. */
#define FILE_QUESTION(name, function, kind, ...)                                                                                                     \
    NATIVE(void, name)(JNIEnv *env, UNUSED jclass self, jobject buffer, jint size, jlong length, jlongArray answer) {                                \
        lent b;                                                                                                                                      \
        kind a;                                                                                                                                      \
        if (places(env, answer, PLACES(__VA_ARGS__)) && direct(env, buffer, size, 1, &b)) {                                                          \
            a = function(b.at, b.size, (size_t)length);                                                                                              \
            TELL(__VA_ARGS__);                                                                                                                       \
        }                                                                                                                                            \
    }

FILE_QUESTION(nativeCheck, seg2_check, seg2_verdict, VERDICT(a))
FILE_QUESTION(nativeFileBlock, seg2_file_block_of, seg2_file, FILE_BLOCK(a))
FILE_QUESTION(nativeLenientCheck, seg2_lenient_check_of, seg2_lenient_verdict, LENIENT(VERDICT, a))
FILE_QUESTION(nativeLenientFileBlock, seg2_lenient_file_block_of, seg2_lenient_file, LENIENT(FILE_BLOCK, a))

#define PART_QUESTION(name, function, kind, ...)                                                                                                     \
    NATIVE(void, name)(JNIEnv *env, UNUSED jclass self, jobject buffer, jint size, jlong length, jint part, jlongArray answer) {                     \
        lent b;                                                                                                                                      \
        kind a;                                                                                                                                      \
        if (places(env, answer, PLACES(__VA_ARGS__)) && direct(env, buffer, size, 1, &b)) {                                                          \
            a = function(b.at, b.size, (size_t)length, part);                                                                                        \
            TELL(__VA_ARGS__);                                                                                                                       \
        }                                                                                                                                            \
    }

PART_QUESTION(nativeTraceBlock, seg2_trace_block_of, seg2_trace, TRACE_BLOCK(a))
PART_QUESTION(nativeQuickTraceBlock, seg2_quick_trace_block_of, seg2_trace, TRACE_BLOCK(a))
PART_QUESTION(nativeLenientTraceBlock, seg2_lenient_trace_block_of, seg2_lenient_trace, LENIENT(TRACE_BLOCK, a))
PART_QUESTION(nativeStringCount, seg2_string_count_of, seg2_count, COUNT(a))
PART_QUESTION(nativeQuickStringCount, seg2_quick_string_count_of, seg2_count, COUNT(a))
PART_QUESTION(nativeLenientStringCount, seg2_lenient_string_count_of, seg2_lenient_count, LENIENT(COUNT, a))

#define STRING_QUESTION(name, function, kind, ...)                                                                                                   \
    NATIVE(void, name)(JNIEnv *env, UNUSED jclass self, jobject buffer, jint size, jlong length, jint part, jlong index, jlongArray answer) {        \
        lent b;                                                                                                                                      \
        struct kind a;                                                                                                                               \
        if (places(env, answer, PLACES(__VA_ARGS__)) && direct(env, buffer, size, 1, &b)) {                                                          \
            a = function(b.at, b.size, (size_t)length, part, (size_t)index);                                                                         \
            TELL(__VA_ARGS__);                                                                                                                       \
        }                                                                                                                                            \
    }

STRING_QUESTION(nativeString, seg2_string_of, seg2_string, STRING(a))
STRING_QUESTION(nativeQuickString, seg2_quick_string_of, seg2_string, STRING(a))
STRING_QUESTION(nativeLenientString, seg2_lenient_string_of, seg2_lenient_string, LENIENT(STRING, a))

#define KEYWORD_QUESTION(name, function, kind, ...)                                                                                                  \
    NATIVE(void, name)(JNIEnv *env, UNUSED jclass self, jobject buffer, jint size, jlong length, jint part, jbyteArray key, jlongArray answer) {     \
        lent b, k;                                                                                                                                   \
        struct kind a;                                                                                                                               \
        if (places(env, answer, PLACES(__VA_ARGS__)) && direct(env, buffer, size, 1, &b) && bytes(env, key, &k)) {                                   \
            a = function(b.at, b.size, (size_t)length, part, k.at, k.size);                                                                          \
            returned(env, key, k);                                                                                                                   \
            TELL(__VA_ARGS__);                                                                                                                       \
        }                                                                                                                                            \
    }

KEYWORD_QUESTION(nativeKeyword, seg2_keyword_of, seg2_keyword, KEYWORD(a))
KEYWORD_QUESTION(nativeValue, seg2_value_of, seg2_value, VALUE(a))
KEYWORD_QUESTION(nativeNumber, seg2_number_of, seg2_number, NUMBER(a))
KEYWORD_QUESTION(nativeDouble, seg2_double_of, seg2_double, DOUBLE(a))
KEYWORD_QUESTION(nativeLocation, seg2_location_of, seg2_location, LOCATION(a))
KEYWORD_QUESTION(nativeQuickKeyword, seg2_quick_keyword_of, seg2_keyword, KEYWORD(a))
KEYWORD_QUESTION(nativeQuickValue, seg2_quick_value_of, seg2_value, VALUE(a))
KEYWORD_QUESTION(nativeQuickNumber, seg2_quick_number_of, seg2_number, NUMBER(a))
KEYWORD_QUESTION(nativeQuickDouble, seg2_quick_double_of, seg2_double, DOUBLE(a))
KEYWORD_QUESTION(nativeQuickLocation, seg2_quick_location_of, seg2_location, LOCATION(a))
KEYWORD_QUESTION(nativeLenientKeyword, seg2_lenient_keyword_of, seg2_lenient_keyword, LENIENT(KEYWORD, a))
KEYWORD_QUESTION(nativeLenientValue, seg2_lenient_value_of, seg2_lenient_value, LENIENT(VALUE, a))
KEYWORD_QUESTION(nativeLenientNumber, seg2_lenient_number_of, seg2_lenient_number, LENIENT(NUMBER, a))
KEYWORD_QUESTION(nativeLenientDouble, seg2_lenient_double_of, seg2_lenient_double, LENIENT(DOUBLE, a))
KEYWORD_QUESTION(nativeLenientLocation, seg2_lenient_location_of, seg2_lenient_location, LENIENT(LOCATION, a))

/* ---- a number and its text */

NATIVE(void, nativeReadNumber)(JNIEnv *env, UNUSED jclass self, jbyteArray text, jlongArray answer) {
    lent t;
    struct seg2_number a;
    if (places(env, answer, PLACES(NUMBER(a))) && bytes(env, text, &t)) {
        a = seg2_read_number_of(t.at, t.size);
        returned(env, text, t);
        TELL(NUMBER(a));
    }
}

/* The copy of an array that the library writes is handed back only where it has accepted: where the first of the told numbers is 0. */
static jint handed_back(const jlong *told) {
    return told[0] == 0 ? 0 : JNI_ABORT;
}

NATIVE(void, nativeWriteNumber)(JNIEnv *env, UNUSED jclass self, jbyteArray text, jboolean minus, jlong coefficient, jint power, jint decimals,
                                jlongArray answer) {
    lent t;
    seg2_length a;
    if (places(env, answer, PLACES(LENGTH(a))) && bytes(env, text, &t)) {
        a = seg2_write_number_of(t.at, t.size, minus != JNI_FALSE, (uint64_t)coefficient, power, (uint32_t)decimals);
        (*env)->ReleaseByteArrayElements(env, text, t.at, handed_back(ROW(LENGTH(a))));
        TELL(LENGTH(a));
    }
}

/* ---- rows: of samples, and of places of strings. An array goes through a copy, as a text does; a direct buffer's memory is written itself. */

#define ARRAY_QUESTION(name, function, element, Element, sample, kind, ...)                                                                          \
    NATIVE(void, name)(JNIEnv *env, UNUSED jclass self, jobject buffer, jint size, jlong length, jint part, element##Array row,                      \
                       jlongArray answer) {                                                                                                          \
        lent b;                                                                                                                                      \
        kind a;                                                                                                                                      \
        if (row == NULL) {                                                                                                                           \
            misuse(env, "the row is null");                                                                                                          \
        } else if (places(env, answer, PLACES(__VA_ARGS__)) && direct(env, buffer, size, 1, &b)) {                                                   \
            size_t count = (size_t)(*env)->GetArrayLength(env, row);                                                                                 \
            element *at = (*env)->Get##Element##ArrayElements(env, row, NULL);                                                                       \
            if (at != NULL) {                                                                                                                        \
                a = function(b.at, b.size, (size_t)length, part, (sample *)at, count);                                                               \
                (*env)->Release##Element##ArrayElements(env, row, at, handed_back(ROW(__VA_ARGS__)));                                                \
                TELL(__VA_ARGS__);                                                                                                                   \
            }                                                                                                                                        \
        }                                                                                                                                            \
    }

ARRAY_QUESTION(nativeIntegersArray, seg2_integers, jint, Int, int32_t, seg2_verdict, VERDICT(a))
ARRAY_QUESTION(nativeQuickIntegersArray, seg2_quick_integers, jint, Int, int32_t, seg2_verdict, VERDICT(a))
ARRAY_QUESTION(nativeLenientIntegersArray, seg2_lenient_integers_of, jint, Int, int32_t, seg2_lenient_verdict, LENIENT(VERDICT, a))
ARRAY_QUESTION(nativeStrings, seg2_strings, jlong, Long, size_t, seg2_verdict, VERDICT(a))
ARRAY_QUESTION(nativeQuickStrings, seg2_quick_strings, jlong, Long, size_t, seg2_verdict, VERDICT(a))
ARRAY_QUESTION(nativeLenientStrings, seg2_lenient_strings_of, jlong, Long, size_t, seg2_lenient_verdict, LENIENT(VERDICT, a))

#define BUFFER_QUESTION(name, function, kind, ...)                                                                                                   \
    NATIVE(void, name)(JNIEnv *env, UNUSED jclass self, jobject buffer, jint size, jlong length, jint trace, jobject row, jint count,                \
                       jlongArray answer) {                                                                                                          \
        lent b, r;                                                                                                                                   \
        kind a;                                                                                                                                      \
        if (places(env, answer, PLACES(__VA_ARGS__)) && direct(env, buffer, size, 1, &b) && direct(env, row, count, sizeof(int32_t), &r) &&          \
            apart(env, b, r)) {                                                                                                                      \
            a = function(b.at, b.size, (size_t)length, trace, r.at, (size_t)count);                                                                  \
            TELL(__VA_ARGS__);                                                                                                                       \
        }                                                                                                                                            \
    }

BUFFER_QUESTION(nativeIntegersBuffer, seg2_integers, seg2_verdict, VERDICT(a))
BUFFER_QUESTION(nativeQuickIntegersBuffer, seg2_quick_integers, seg2_verdict, VERDICT(a))
BUFFER_QUESTION(nativeLenientIntegersBuffer, seg2_lenient_integers_of, seg2_lenient_verdict, LENIENT(VERDICT, a))

#define BITS_QUESTION(name, function, kind, ...)                                                                                                     \
    NATIVE(void, name)(JNIEnv *env, UNUSED jclass self, jobject buffer, jint size, jlong length, jint trace, jlongArray row, jbyteArray classes,     \
                       jlongArray answer) {                                                                                                          \
        lent b;                                                                                                                                      \
        kind a;                                                                                                                                      \
        if (row == NULL || classes == NULL) {                                                                                                        \
            misuse(env, "a row is null");                                                                                                            \
        } else if (places(env, answer, PLACES(__VA_ARGS__)) && direct(env, buffer, size, 1, &b)) {                                                   \
            size_t count = (size_t)(*env)->GetArrayLength(env, row);                                                                                 \
            size_t class_count = (size_t)(*env)->GetArrayLength(env, classes);                                                                       \
            jlong *at = (*env)->GetLongArrayElements(env, row, NULL);                                                                                \
            if (at != NULL) {                                                                                                                        \
                jbyte *class_at = (*env)->GetByteArrayElements(env, classes, NULL);                                                                  \
                if (class_at == NULL) {                                                                                                              \
                    (*env)->ReleaseLongArrayElements(env, row, at, JNI_ABORT);                                                                       \
                } else {                                                                                                                             \
                    a = function(b.at, b.size, (size_t)length, trace, (uint64_t *)at, count, (uint8_t *)class_at, class_count);                      \
                    (*env)->ReleaseByteArrayElements(env, classes, class_at, handed_back(ROW(__VA_ARGS__)));                                         \
                    (*env)->ReleaseLongArrayElements(env, row, at, handed_back(ROW(__VA_ARGS__)));                                                   \
                    TELL(__VA_ARGS__);                                                                                                               \
                }                                                                                                                                    \
            }                                                                                                                                        \
        }                                                                                                                                            \
    }

BITS_QUESTION(nativeBits, seg2_bits, seg2_verdict, VERDICT(a))
BITS_QUESTION(nativeQuickBits, seg2_quick_bits, seg2_verdict, VERDICT(a))
BITS_QUESTION(nativeLenientBits, seg2_lenient_bits_of, seg2_lenient_verdict, LENIENT(VERDICT, a))

/* ---- writing */

NATIVE(void, nativeStart)(JNIEnv *env, UNUSED jclass self, jobject buffer, jint size, jint order, jint slots, jbyteArray sheet, jlongArray answer) {
    lent b, s;
    seg2_length a;
    if (places(env, answer, PLACES(LENGTH(a))) && direct(env, buffer, size, 1, &b) && bytes(env, sheet, &s)) {
        a = seg2_start_of(b.at, b.size, (uint32_t)order, (uint32_t)slots, s.at, s.size);
        returned(env, sheet, s);
        TELL(LENGTH(a));
    }
}

/* The two additions from an array differ in their samples alone. */
#define ADDITION_FROM_ARRAY(name, function, element, Element, sample)                                                                                \
    NATIVE(void, name)(JNIEnv *env, UNUSED jclass self, jobject buffer, jint size, jlong length, jbyteArray sheet, jint code, element##Array row,    \
                       jlongArray answer) {                                                                                                          \
        lent b, s;                                                                                                                                   \
        seg2_length a;                                                                                                                               \
        if (row == NULL) {                                                                                                                           \
            misuse(env, "the row is null");                                                                                                          \
        } else if (places(env, answer, PLACES(LENGTH(a))) && direct(env, buffer, size, 1, &b) && bytes(env, sheet, &s)) {                            \
            size_t count = (size_t)(*env)->GetArrayLength(env, row);                                                                                 \
            element *at = (*env)->Get##Element##ArrayElements(env, row, NULL);                                                                       \
            if (at == NULL) {                                                                                                                        \
                returned(env, sheet, s);                                                                                                             \
            } else {                                                                                                                                 \
                a = function(b.at, b.size, (size_t)length, s.at, s.size, (uint32_t)code, (const sample *)at, count);                                 \
                (*env)->Release##Element##ArrayElements(env, row, at, JNI_ABORT);                                                                    \
                returned(env, sheet, s);                                                                                                             \
                TELL(LENGTH(a));                                                                                                                     \
            }                                                                                                                                        \
        }                                                                                                                                            \
    }

ADDITION_FROM_ARRAY(nativeAddIntegersArray, seg2_add_integers_of, jint, Int, int32_t)
ADDITION_FROM_ARRAY(nativeAddBits, seg2_add_bits_of, jlong, Long, uint64_t)

NATIVE(void, nativeAddIntegersBuffer)(JNIEnv *env, UNUSED jclass self, jobject buffer, jint size, jlong length, jbyteArray sheet, jint code, jobject row,
                                      jint count, jlongArray answer) {
    lent b, s, r;
    seg2_length a;
    if (places(env, answer, PLACES(LENGTH(a))) && direct(env, buffer, size, 1, &b) && direct(env, row, count, sizeof(int32_t), &r) &&
        apart(env, b, r) && bytes(env, sheet, &s)) {
        a = seg2_add_integers_of(b.at, b.size, (size_t)length, s.at, s.size, (uint32_t)code, r.at, (size_t)count);
        returned(env, sheet, s);
        TELL(LENGTH(a));
    }
}

/* ---- room beforehand */

NATIVE(void, nativeStartSize)(JNIEnv *env, UNUSED jclass self, jint order, jint slots, jbyteArray sheet, jlongArray answer) {
    lent s;
    seg2_length a;
    if (places(env, answer, PLACES(LENGTH(a))) && bytes(env, sheet, &s)) {
        seg2_start_size(&a, (uint32_t)order, (uint32_t)slots, s.at, s.size);
        returned(env, sheet, s);
        TELL(LENGTH(a));
    }
}

NATIVE(void, nativeAddSize)(JNIEnv *env, UNUSED jclass self, jobject buffer, jint size, jlong length, jbyteArray sheet, jint code, jlong count,
                            jlongArray answer) {
    lent b, s;
    seg2_length a;
    if (places(env, answer, PLACES(LENGTH(a))) && direct(env, buffer, size, 1, &b) && bytes(env, sheet, &s)) {
        seg2_add_size(&a, b.at, b.size, (size_t)length, s.at, s.size, (uint32_t)code, (size_t)count);
        returned(env, sheet, s);
        TELL(LENGTH(a));
    }
}
