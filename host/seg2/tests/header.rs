//! The header against the archive: a C program that includes it, compiled with
//! warnings as errors and under the sanitizers, calls every function and gets the
//! answers that documents 01 and 02 give.

mod c;

use c::{compiled, here, printed, root, Temporary};
use std::process::Command;

/// What header.c prints before the table's words.
const ANSWERS: &str = "\
start: 0 -1 0 length 56
check of a start: 5 -1 6
add: 0 -1 0 length 108
past the end EE
check: 0 -1 0
file: 0 -1 0 order 0 M 4 N 1 terminators 1 1
trace: 0 -1 0 p 56 B 44 D 8 S 3 code 1
count: 0 -1 0 1
string: 0 -1 0 found 1 'UNITS' 'METERS'
string past the last: 0 -1 0 found 0 0 0 0 0
strings: 0 -1 0
places 38 5 44 6
keyword: 0 -1 0 found 1
no keyword: 0 -1 0 found 0
value: 0 -1 0 'METERS' at 44
number: 0 -1 0 minus 0 1 E 0 decimals 0
double: 0 -1 0 1
location: 0 -1 0 count 1 1 0 0 decimals 0 0 0
integers: 0 -1 0
row 1 -1 256
value of no part: 18 -1 0 at 0 length 0
no number: 20 -1 0
no double: 20 -1 0
no location: 23 -1 0
trace -1: 18 -1 0
strings of trace 1: 18 -1 0
file over the buffer: 1 -1 0
a row of 4: 32 -1 0
no such trace: 18 -1 0
bits of code 1: 33 -1 0
row 7 7 7 7, 7 7
places for two strings: 32 -1 0
places of no part: 18 -1 0
places 7 7 7 7
unchanged
quick trace: 0 -1 0 p 56 B 44 D 8 S 3 code 1
quick count: 0 -1 0 1
quick string: 0 -1 0 found 1 'STACK' '1'
quick strings: 0 -1 0
places 90 5 96 1
quick keyword: 0 -1 0 found 1
quick value: 0 -1 0 '1' at 96
quick number: 0 -1 0 minus 0 1 E 0 decimals 0
quick double: 0 -1 0 1
quick location: 0 -1 0 count 1 1 0 0 decimals 0 0 0
quick integers: 0 -1 0
row 1 -1 256
quick trace: 18 -1 0 p 0 B 0 D 0 S 0 code 0
quick count: 18 -1 0 0
quick string: 18 -1 0 found 0 '' ''
quick strings: 18 -1 0
places 7 7 7 7
quick keyword: 18 -1 0 found 0
quick value: 18 -1 0 '' at 0
quick number: 18 -1 0 minus 0 0 E 0 decimals 0
quick double: 18 -1 0 0
quick location: 18 -1 0 count 0 0 0 0 decimals 0 0 0
quick integers: 18 -1 0
row 7 7 7
no quick keyword: 0 -1 0 found 0
a quick no: 0 -1 0 '' at 0
quick trace -1: 18 -1 0 '' at 0
quick over the buffer: 1 -1 0 '' at 0
quick block of trace -1: 18 -1 0 p 0 B 0 D 0 S 0 code 0
quick count of trace -1: 18 -1 0 0
quick string past the last: 0 -1 0 found 0 '' ''
no quick number: 20 -1 0 minus 0 0 E 0 decimals 0
no quick double: 20 -1 0 0
no quick location: 23 -1 0 count 0 0 0 0 decimals 0 0 0
a quick row of 4: 32 -1 0
quick bits of code 1: 33 -1 0
5 quick places: 32 -1 0
row 7 7 7
places 7 7 7 7
check: 16 -1 36
quick trace: 0 -1 0 p 56 B 44 D 8 S 3 code 1
quick count: 0 -1 0 1
quick string: 0 -1 0 found 1 'STACK' '1'
quick strings: 0 -1 0
places 90 5 96 1
quick keyword: 0 -1 0 found 1
quick value: 0 -1 0 '1' at 96
quick number: 0 -1 0 minus 0 1 E 0 decimals 0
quick double: 0 -1 0 1
quick location: 0 -1 0 count 1 1 0 0 decimals 0 0 0
quick integers: 0 -1 0
row 1 -1 256
quick trace: 0 -1 0 p 56 B 44 D 8 S 3 code 1
quick count: 16 0 88 0
quick string: 16 0 88 found 0 '' ''
quick strings: 16 0 88
places 7 7 7 7
quick keyword: 16 0 88 found 0
quick value: 16 0 88 '' at 0
quick number: 16 0 88 minus 0 0 E 0 decimals 0
quick double: 16 0 88 0
quick location: 16 0 88 count 0 0 0 0 decimals 0 0 0
quick integers: 0 -1 0
row 1 -1 256
unchanged
no slot: 24 -1 0 length 0
no order: 31 -1 0 length 0
a bad second line: 25 -1 4 length 0
a line out of order: 26 -1 4 length 0
no room: 30 -1 0 length 0
unchanged
start: 0 -1 0 length 48
add 3: 0 -1 0 length 128
add 5: 0 -1 0 length 180
too large: 29 -1 2 length 0
bits as code 1: 28 -1 0 length 0
integers 3: 0 -1 0
row 100000 -32768 1073709056 20
bits: 0 -1 0
row 7FF0000000000000 3 8000000000000000 0
quick bits: 0 -1 0
row 7FF0000000000000 3 8000000000000000 0
no quick strings: 0 -1 0 0
location: 0 -1 0 count 3 1 -2.5 3 decimals 0 1 2
quick location: 0 -1 0 count 3 1 -2.5 3 decimals 0 1 2
typed: 0 -1 0 minus 0 250 E -3 decimals 3
text: 0 -1 0 length 5
'0.250' then _
typed: 0 -1 0 minus 0 12 E 0 decimals 0
text: 0 -1 0 length 2
'12' then _
typed: 0 -1 0 minus 0 250 E -5 decimals 2
text: 0 -1 0 length 7
'2.50E-3' then _
typed: 0 -1 0 minus 0 0 E -1 decimals 1
text: 0 -1 0 length 3
'0.0' then _
typed: 20 -1 0 minus 0 0 E 0 decimals 0
typed: 21 -1 0 minus 0 0 E 0 decimals 0
typed: 20 -1 0 minus 0 0 E 0 decimals 0
typed: 0 -1 0 minus 1 123456789012345678 E -116 decimals 17
text: 0 -1 0 length 24
'-1.23456789012345678E-99' then _
zero with minus: 20 -1 0 length 0
19 digits: 21 -1 0 length 0
18 decimals: 21 -1 0 length 0
E100: 21 -1 0 length 0
an exact sum: 21 -1 0 length 0
no room: 30 -1 0 length 0
no bytes: 30 -1 0 length 0
unchanged
exactly room: 0 -1 0 length 5
any minus: 0 -1 0 length 2
-7250_
read: 0 -1 0 minus 1 7 E 0 decimals 0
16 in trace 0 at its first string 1: a forbidden character in a keyword or value, or an empty keyword
start: 0 -1 0 length 64
0 as the first: 35 -1 0 length 0
channel 1: 0 -1 0 length 124
none: 35 -1 0 length 0
1.0: 35 -1 0 length 0
unchanged
channel 2: 0 -1 0 length 184
both: 0 -1 0
34 in trace 1 where its strings start 1
start: 0 -1 0 length 60
add: 0 -1 0 length 128
strings at 92
strict 0 -1 0, lenient check: 0 -1 0
strict 0 -1 0, lenient file: 0 -1 0 order 0 M 8 N 1 terminators 1 1
strict 0 -1 0, lenient trace: 0 -1 0 p 60 B 60 D 8 S 3 code 1
strict 0 -1 0, lenient count: 0 -1 0 2
strict 0 -1 0, lenient string: 0 -1 0 found 1 'STACK' '4.50'
strict 0 -1 0, lenient strings: 0 -1 0
places 94 5 100 1
places 104 5 110 4
strict 0 -1 0, lenient keyword: 0 -1 0 found 1
strict 0 -1 0, lenient value: 0 -1 0 '4.50' at 110
strict 0 -1 0, lenient number: 0 -1 0 minus 0 450 E -2 decimals 2
strict 0 -1 0, lenient double: 0 -1 0 4.5
strict 0 -1 0, lenient location: 0 -1 0 count 1 4.5 0 0 decimals 2 0 0
strict 0 -1 0, lenient integers: 0 -1 0
row 1 -1 256
strict 0 -1 0, lenient bits: 33 -1 0
row 7 7
strict 16 0 92, lenient check: 0 -1 0
strict 16 0 92, lenient file: 0 -1 0 order 0 M 8 N 1 terminators 1 1
strict 16 0 92, lenient trace: 0 -1 0 p 60 B 60 D 8 S 3 code 1
strict 16 0 92, lenient count: 0 -1 0 2
strict 16 0 92, lenient string: 0 -1 0 found 1 'Stack' '4.50'
strict 16 0 92, lenient strings: 0 -1 0
places 94 5 100 1
places 104 5 110 4
strict 16 0 92, lenient keyword: 0 -1 0 found 1
strict 16 0 92, lenient value: 0 -1 0 '2' at 100
strict 16 0 92, lenient number: 0 -1 0 minus 0 2 E 0 decimals 0
strict 16 0 92, lenient double: 0 -1 0 2
strict 16 0 92, lenient location: 0 -1 0 count 1 2 0 0 decimals 0 0 0
strict 16 0 92, lenient integers: 0 -1 0
row 1 -1 256
strict 16 0 92, lenient bits: 33 -1 0
row 7 7
strict 1 -1 0, lenient over the buffer: 1 -1 0
lenient trace -1: 18 -1 0 p 0 B 0 D 0 S 0 code 0
lenient count of trace 1: 18 -1 0 0
lenient string past the last: 0 -1 0 found 0 '' ''
7 lenient places: 32 -1 0
no lenient keyword: 0
asked in small letters: 0
no lenient value: 0
no lenient number: 20 -1 0 minus 0 0 E 0 decimals 0
no lenient double: 20 -1 0 0
no lenient location: 23 -1 0 count 0 0 0 0 decimals 0 0 0
a lenient row of 4: 32 -1 0
lenient bits of trace 1: 18 -1 0
row 7 7 7
places 7 7 7 7
unchanged
no addition: 16 0 92 length 0
strict 16 0 92, lenient check: 16 0 102
strict 16 0 92, lenient file: 16 0 102 order 0 M 0 N 0 terminators 0 0
strict 16 0 92, lenient trace: 16 0 102 p 0 B 0 D 0 S 0 code 0
strict 16 0 92, lenient count: 16 0 102 0
strict 16 0 92, lenient string: 16 0 102 found 0 '' ''
strict 16 0 92, lenient strings: 16 0 102
places 7 7 7 7
places 7 7 7 7
strict 16 0 92, lenient keyword: 16 0 102 found 0
strict 16 0 92, lenient value: 16 0 102 '' at 0
strict 16 0 92, lenient number: 16 0 102 minus 0 0 E 0 decimals 0
strict 16 0 92, lenient double: 16 0 102 0
strict 16 0 92, lenient location: 16 0 102 count 0 0 0 0 decimals 0 0 0
strict 16 0 92, lenient integers: 16 0 102
row 7 7 7
strict 16 0 92, lenient bits: 16 0 102
row 7 7
strict 14 0 120, lenient check: 0 -1 0
strict 14 0 120, lenient file: 0 -1 0 order 0 M 8 N 1 terminators 1 1
strict 14 0 120, lenient trace: 0 -1 0 p 60 B 60 D 8 S 3 code 1
strict 14 0 120, lenient count: 0 -1 0 2
strict 14 0 120, lenient string: 0 -1 0 found 1 'STACK' '4.5000000'
strict 14 0 120, lenient strings: 0 -1 0
places 94 5 100 1
places 104 5 110 9
strict 14 0 120, lenient keyword: 0 -1 0 found 1
strict 14 0 120, lenient value: 0 -1 0 '4.5000000' at 110
strict 14 0 120, lenient number: 0 -1 0 minus 0 45000000 E -7 decimals 7
strict 14 0 120, lenient double: 0 -1 0 4.5
strict 14 0 120, lenient location: 0 -1 0 count 1 4.5 0 0 decimals 7 0 0
strict 14 0 120, lenient integers: 0 -1 0
row 1 -1 256
strict 14 0 120, lenient bits: 33 -1 0
row 7 7
start: 0 -1 0 length 56
add: 0 -1 0 length 108
strict 16 -1 36, lenient bits: 0 -1 0
row 7FF0000000000000 3 8000000000000000 0
a start needs: 0 -1 0 length 56
no slots: 31 -1 0 length 0
a bad second line: 25 -1 4 length 0
a byte less: 30 -1 0 length 0
a start: 0 -1 0 length 56
an addition needs: 0 -1 0 length 108
code 6: 28 -1 0 length 0
5 samples in fours: 28 -1 0 length 0
more than a file may have: 30 -1 0 length 0
the largest: 0 -1 0 length 67108864
a sample more: 30 -1 0 length 0
no file: 1 -1 0 length 0
unchanged
a byte less: 30 -1 0 length 0
an addition: 0 -1 0 length 108
no slot: 24 -1 0 length 0
";

/// The answers, then the words of each number of two digits, which are those of the Rust
/// side. No row of the table has more (refusal/proofs/Numbers, `below-hundred`).
fn expected() -> String {
    let words = (0..100).map(|number| format!("{number} {}\n", seg2::text(number)));
    ANSWERS.to_string() + &words.collect::<String>()
}

const SANITIZED: [&str; 3] = [
    "-g",
    "-fsanitize=address,undefined",
    "-fno-sanitize-recover=all",
];

#[test]
fn a_c_program_gets_the_answers_of_document_01() {
    let options = [&["-std=c99"], &SANITIZED[..]].concat();
    let program =
        compiled("cc", &options, &here().join("tests/header.c"), "header-c").expect("a C compiler");
    assert_eq!(printed(&program), expected());
}

/// What a compiler says of some lines with all warnings on: whether it takes them, and its
/// words; none where there is no such compiler, which may not be C's.
fn judged(name: &str, compiler: &str, standard: &str, lines: &str) -> Option<(bool, String)> {
    let source = Temporary::new(name);
    std::fs::write(source.path(), lines).expect("a file");
    let language = if compiler == "cc" { "c" } else { "c++" };
    let out = Command::new(compiler)
        .args([standard, "-fsyntax-only", "-Wall", "-Wextra", "-Wpedantic"])
        .args(["-Werror", "-x", language, "-I"])
        .arg(root().join("include"))
        .arg(source.path())
        .output();
    let Ok(out) = out else {
        assert_ne!(compiler, "cc", "a C compiler");
        return None;
    };
    let said = String::from_utf8_lossy(&out.stderr).into_owned();
    Some((out.status.success(), said))
}

/// A system of 32 bits, as far as the header sees one: `size_t` is renamed before it is read.
#[test]
fn a_size_t_of_32_bits_is_refused() {
    for (compiler, standard) in [
        ("cc", "-std=c99"),
        ("cc", "-std=c11"),
        ("c++", "-std=c++11"),
    ] {
        for (kind, taken) in [("uint64_t", true), ("uint32_t", false)] {
            let lines = format!("#include <stddef.h>\n#include <stdint.h>\n#define size_t {kind}\n#include \"seg2.h\"\n");
            if let Some((is, said)) = judged("sizes.h", compiler, standard, &lines) {
                assert_eq!(is, taken, "{standard} {kind}: {said}");
                assert!(taken || said.contains("64"), "{standard}: {said}");
            }
        }
    }
}

/// A keyword, a sheet and a text need no cast, be they `char` or `uint8_t`; and a size that is
/// not the text's is none: `SEG2_LITERAL` of a pointer is an error.
#[test]
fn texts_need_no_cast_and_a_pointer_is_no_literal() {
    let asked = |key: &str| {
        format!("#include \"seg2.h\"
            struct seg2_value v(const uint8_t *b, const char *c, const uint8_t *u);
            struct seg2_value v(const uint8_t *b, const char *c, const uint8_t *u) {{ (void)c; (void)u; return seg2_value_of(b, 9, 9, -1, {key}); }}")
    };
    for (compiler, standard) in [("cc", "-std=c99"), ("c++", "-std=c++11")] {
        for (key, taken) in [
            ("c, 5", true),
            ("u, 5", true),
            ("SEG2_LITERAL(\"UNITS\")", true),
            ("SEG2_LITERAL(c)", false),
            ("SEG2_LITERAL(u)", false),
        ] {
            if let Some((is, said)) = judged("keys.h", compiler, standard, &asked(key)) {
                assert_eq!(is, taken, "{standard} {key}: {said}");
            }
        }
    }
}

#[test]
fn a_cpp_program_gets_them_too() {
    let options = [&["-x", "c++", "-std=c++11"], &SANITIZED[..]].concat();
    match compiled(
        "c++",
        &options,
        &here().join("tests/header.c"),
        "header-cpp",
    ) {
        Some(program) => assert_eq!(printed(&program), expected()),
        None => println!("no C++ compiler here: the header was not tried as C++"),
    }
}

#[test]
fn the_header_has_every_number_of_the_table_once() {
    let header = std::fs::read_to_string(root().join("include/seg2.h")).expect("the header");
    let (_, table) = header.split_once("enum seg2_refusal {").expect("the table");
    let (table, _) = table.split_once("};").expect("its end");
    let numbers: Vec<u32> = table
        .lines()
        .filter_map(|line| line.trim().strip_prefix("SEG2_")?.split_once(" = "))
        .filter_map(|(_, rest)| rest.split([',', ' ']).next()?.parse().ok())
        .collect();
    let table: Vec<u32> = std::iter::once(0).chain(seg2::numbers()).collect();
    assert_eq!(numbers, table);
}

#[test]
fn every_row_has_its_own_words() {
    // those of the table, "accepted", and the words for what is not in the table
    let words: std::collections::BTreeSet<_> = (0..100).map(seg2::text).collect();
    assert_eq!(words.len(), seg2::numbers().count() + 2);
}

/// The list that Java's tests read too: number, part, place, words. With the table that
/// the C program prints, header, Rust and Java say the same of each row.
#[test]
fn a_refusal_is_told_as_the_list_has_it() {
    let list = std::fs::read_to_string(here().join("tests/refusals.txt")).expect("the list");
    let mut numbers = std::collections::BTreeSet::new();
    for line in list.lines() {
        let told: Vec<&str> = line.split('\t').collect();
        let [number, part, place, words] = told[..] else {
            panic!("not four fields: {line}");
        };
        let refusal = seg2::Refusal {
            number: number.parse().expect("a number"),
            part: part.parse().expect("a part"),
            place: place.parse().expect("a place"),
        };
        assert_eq!(refusal.to_string(), words);
        numbers.insert(refusal.number);
    }
    assert_eq!(numbers, seg2::numbers().collect());
}

/// The n-th lines of C in docs/USING.md, counted from 0.
fn lines_of_c(n: usize) -> String {
    let page = std::fs::read_to_string(root().join("docs/USING.md")).expect("the page");
    let lines = page.split("```c\n").nth(n + 1).expect("lines of C");
    let (lines, _) = lines.split_once("```").expect("their end");
    lines.to_string()
}

/// What a C program prints that was compiled with all sanitizers.
fn printed_by(name: &str, lines: &str) -> String {
    let source = Temporary::new(&format!("{name}.c"));
    std::fs::write(source.path(), lines).expect("a source for the test");
    let options = [&["-std=c99"], &SANITIZED[..]].concat();
    let program = compiled("cc", &options, source.path(), name).expect("a C compiler");
    printed(&program)
}

#[test]
fn the_first_lines_of_c_in_the_docs_work() {
    let told = printed_by("using", &lines_of_c(0));
    assert_eq!(told, "accepted, 200 bytes\nMETERS\n");
}

/// What goes before a program of the reader's own: the first lines have it.
fn before() -> String {
    let first = lines_of_c(0);
    let (before, _) = first.split_once("static").expect("a program");
    before.to_string()
}

#[test]
fn the_lines_on_numbers_in_the_docs_work() {
    let (before, lines) = (before(), lines_of_c(2));
    let program = format!("{before}int main(void) {{\n{lines}return 0;\n}}\n");
    assert_eq!(printed_by("numbers", &program), "0.250\n");
}

#[test]
fn the_lines_on_room_in_the_docs_work() {
    let (before, lines) = (before(), lines_of_c(1));
    let program = format!(
        "#include <stdlib.h>
        {before}int main(void) {{
            const int32_t samples[3] = {{1, -1, 256}};
            {lines}
            printf(\"%zu %u\\n\", length, (unsigned)seg2_check(file, room.length, length).number);
            free(file);
            return 0;
        }}\n"
    );
    assert_eq!(printed_by("room", &program), "200 0\n");
}

#[test]
fn the_lines_on_one_trace_in_the_docs_work() {
    let (before, value, list) = (before(), lines_of_c(3), lines_of_c(4));
    // the page asks the last of 2,000 traces, which are two here
    let value = value.replace(" 1999,", " 1,");
    let program = format!(
        "{before}{list}
        int main(void) {{
            static uint8_t buffer[400];
            const size_t size = sizeof buffer;
            const int32_t row[1] = {{1}};
            size_t length = seg2_start_of(buffer, size, SEG2_LOW_FIRST, 2, SEG2_LITERAL(\"UNITS\\tMETERS\\n\")).length;
            length = seg2_add_integers_of(buffer, size, length, SEG2_LITERAL(\"DELAY\\t0\\nSTACK\\t4\\n\"), SEG2_FIXED_16, row, 1).length;
            length = seg2_add_integers_of(buffer, size, length, SEG2_LITERAL(\"STACK\\t8\\n\"), SEG2_FIXED_16, row, 1).length;
            {value}
            printf(\"%.*s\\n\", (int)stack.value_length, seg2_chars(buffer, stack.value_start));
            list(buffer, size, length);
            list(buffer, size, length - 1);
            return 0;
        }}\n"
    );
    let told = printed_by("one-trace", &program);
    assert_eq!(told, "8\n0 DELAY=0\n0 STACK=4\n1 STACK=8\n");
}

#[test]
fn the_lines_on_older_recorders_in_the_docs_work() {
    let (before, list) = (before(), lines_of_c(5));
    let program = format!(
        "{before}{list}
        int main(void) {{
            static uint8_t buffer[400];
            const size_t size = sizeof buffer;
            const int32_t row[1] = {{1}};
            size_t length = seg2_start_of(buffer, size, SEG2_LOW_FIRST, 1, SEG2_LITERAL(\"UNITS\\tMETERS\\n\")).length;
            length = seg2_add_integers_of(buffer, size, length, SEG2_LITERAL(\"DELAY\\t0\\nSTACK\\t4\\n\"), SEG2_FIXED_16, row, 1).length;
            list_old(buffer, size, length, 0);
            buffer[seg2_value_of(buffer, size, length, 0, SEG2_LITERAL(\"STACK\")).value_start - 5] = 't';
            list_old(buffer, size, length, 0);
            list_old(buffer, size, length - 1, 0);
            return 0;
        }}\n"
    );
    let (small, cut) = (seg2::text(16), seg2::text(11));
    let listed = "DELAY=0\nSTACK=4\n";
    let told = format!("{listed}an old file: {small}\n{listed}refused: {cut}\n");
    assert_eq!(printed_by("older-recorders", &program), told);
}
