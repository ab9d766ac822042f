//! The three places that name the face agree: the crates (functions in
//! `crates/seg2`, structs in `crates/face`, `crates/face_values` and
//! `crates/face_lenient`), `include/seg2.h` and `src/raw.rs` have the same functions and
//! structs with the same fields in the same order, laid out alike.

mod c;

use c::{compiled, here, printed, root, Temporary};
use std::collections::BTreeMap;
use std::mem::{offset_of, size_of};

fn read(path: std::path::PathBuf) -> String {
    std::fs::read_to_string(&path).unwrap_or_else(|e| panic!("{}: {e}", path.display()))
}

/// A struct stands behind those that are fields of it.
fn face() -> String {
    let crates = ["face", "face_values", "face_lenient", "seg2"];
    let source = |name| read(root().join(format!("crates/{name}/src/lib.rt")));
    crates.map(source).concat()
}

fn header() -> String {
    let text = read(root().join("include/seg2.h"));
    without_comments(&text)
}

fn without_comments(text: &str) -> String {
    let mut rest = text;
    let mut out = String::new();
    while let Some((before, comment)) = rest.split_once("/*") {
        out += before;
        rest = comment.split_once("*/").expect("a comment's end").1;
    }
    out + rest
}

/// The word before the first bracket of what follows `mark` on a line.
fn name_after(line: &str, mark: &str) -> Option<String> {
    let (_, rest) = line.split_once(mark)?;
    let (name, _) = rest.split_once('(')?;
    Some(name.trim().to_string())
}

fn sorted(mut names: Vec<String>) -> Vec<String> {
    names.sort();
    names
}

fn functions_of_the_face() -> Vec<String> {
    let text = face();
    sorted(
        text.lines()
            .filter_map(|l| name_after(l, "extern \"C\" fn "))
            .collect(),
    )
}

#[test]
fn the_same_functions_are_declared_everywhere() {
    let exported = functions_of_the_face();
    assert!(exported.len() >= 44, "{exported:?}");
    let raw = read(here().join("src/raw.rs"));
    let in_rust = raw.lines().filter_map(|l| name_after(l, "pub fn seg2_"));
    let in_rust = sorted(in_rust.map(|name| format!("seg2_{name}")).collect());
    assert_eq!(in_rust, exported, "src/raw.rs");
    // a declaration starts at the line's start and is neither static nor a type
    let text = header();
    let in_c = text
        .lines()
        .filter(|l| !l.starts_with([' ', '#']))
        .filter(|l| !l.starts_with("static ") && !l.starts_with("typedef "))
        .filter_map(|l| name_after(l, " "))
        .collect();
    assert_eq!(sorted(in_c), exported, "include/seg2.h");
}

#[test]
fn the_c_test_calls_every_function() {
    let program = read(here().join("tests/header.c"));
    for name in functions_of_the_face() {
        let direct = program.contains(&format!("{name}("));
        assert!(direct, "tests/header.c does not call {name}");
    }
}

/// A struct's size, and offset and size of each field in order.
type Layout = (usize, Vec<(usize, usize)>);

/// A field: its name, and where it is a struct itself, that one's name in C.
#[derive(Debug, PartialEq)]
struct Field {
    name: String,
    within: Option<String>,
}

/// A struct of the crates.
struct Struct {
    fields: Vec<Field>,
    layout: Layout,
    alignment: usize,
}

type Structs = BTreeMap<String, Struct>;

/// Size and alignment of a type: those of a number are the same.
fn measured(kind: &str, known: &Structs) -> (usize, usize) {
    match kind {
        "u8" => (1, 1),
        "u32" | "i32" => (4, 4),
        "u64" | "i64" | "usize" | "f64" => (8, 8),
        other => {
            let within = c_name(other).and_then(|name| known.get(&name));
            let within = within.unwrap_or_else(|| panic!("a field of type {other}"));
            (within.layout.0, within.alignment)
        }
    }
}

/// C's layout of fields of these types, and the alignment of them all.
fn laid_out(kinds: &[&str], known: &Structs) -> (Layout, usize) {
    let mut end: usize = 0;
    let mut fields = Vec::new();
    let mut widest = 1;
    for kind in kinds {
        let (size, alignment) = measured(kind, known);
        let at = end.next_multiple_of(alignment);
        fields.push((at, size));
        end = at + size;
        widest = widest.max(alignment);
    }
    ((end.next_multiple_of(widest), fields), widest)
}

/// `Seg2LenientFile` is C's `seg2_lenient_file`; a number's type has no such name.
fn c_name(kind: &str) -> Option<String> {
    let mut name = String::from("seg2");
    for c in kind.strip_prefix("Seg2")?.chars() {
        if c.is_uppercase() {
            name.push('_');
        }
        name.extend(c.to_lowercase());
    }
    Some(name)
}

/// The structs that cross to another language, by C's name: their fields and their layout.
fn structs_of_the_face() -> Structs {
    structs_in_rattle(&face())
}

fn structs_in_rattle(text: &str) -> Structs {
    let mut structs = Structs::new();
    for piece in text.split("pub struct ").skip(1) {
        let (name, rest) = piece.split_once('{').expect("a struct's fields");
        let name = c_name(name.trim()).expect("a name of the face");
        let (body, _) = rest.split_once('}').expect("a struct's end");
        let fields = body.split(',').filter_map(|f| f.split_once(':'));
        let (fields, kinds): (Vec<Field>, Vec<&str>) = fields
            .map(|(field, kind)| (field.trim().trim_start_matches("pub "), kind.trim()))
            .map(|(field, kind)| (field.to_string(), c_name(kind), kind))
            .map(|(name, within, kind)| (Field { name, within }, kind))
            .unzip();
        let (layout, alignment) = laid_out(&kinds, &structs);
        let one = Struct {
            fields,
            layout,
            alignment,
        };
        structs.insert(name, one);
    }
    structs
}

/// The structs of the header with their fields.
fn structs_of_the_header() -> BTreeMap<String, Vec<Field>> {
    structs_in_c(&header())
}

fn structs_in_c(text: &str) -> BTreeMap<String, Vec<Field>> {
    const STRUCT: &str = "struct ";
    let mut structs = BTreeMap::new();
    for (at, _) in text.match_indices("struct seg2_") {
        let Some((name, rest)) = text[at + STRUCT.len()..].split_once(" {\n") else {
            continue;
        };
        if name.contains(['(', ';', ' ', '\n']) {
            continue; // a function that returns one, or a field
        }
        let (body, _) = rest.split_once('}').expect("a struct's end");
        let fields = body.split(';').filter_map(field_in_c);
        structs.insert(name.to_string(), fields.collect());
    }
    structs
}

/// A field's type and name, the type perhaps with the word struct.
fn field_in_c(declared: &str) -> Option<Field> {
    let (kind, name) = declared.trim().rsplit_once(' ')?;
    let kind = kind.trim_start_matches("struct ");
    Some(Field {
        name: name.to_string(),
        within: kind.starts_with("seg2_").then(|| kind.to_string()),
    })
}

/// The structs of the crates whose fields the header does not have, by name and in order.
fn named_otherwise(face: &str, header: &str) -> Vec<String> {
    let declared = structs_in_c(header);
    let library = structs_in_rattle(face).into_iter();
    library
        .filter(|(name, one)| declared.get(name) != Some(&one.fields))
        .map(|(name, _)| name)
        .collect()
}

#[test]
fn the_header_names_fields_as_the_library_does() {
    let (face, header) = (face(), header());
    assert_eq!(named_otherwise(&face, &header), [""; 0]);
    // another name is found, on either side, and so are two fields of one type exchanged
    let room = face.replace("pub pointer_room: usize", "pub room: usize");
    assert_eq!(named_otherwise(&room, &header), ["seg2_file"]);
    let letters = header.replace("size_t key_length;", "size_t letters;");
    assert_eq!(named_otherwise(&face, &letters), ["seg2_string"]);
    let exchanged = face
        .replace("pub x: f64", "pub t: f64")
        .replace("pub y: f64", "pub x: f64")
        .replace("pub t: f64", "pub y: f64");
    assert_eq!(named_otherwise(&exchanged, &header), ["seg2_location"]);
    // so are two structs of one type exchanged, and a struct of another type with the same size
    let exchanged = header.replace(
        "seg2_verdict answer;\n    seg2_verdict strict;",
        "seg2_verdict strict;\n    seg2_verdict answer;",
    );
    assert_eq!(named_otherwise(&face, &exchanged), ["seg2_lenient_verdict"]);
    let other = header.replace("seg2_file answer;", "seg2_trace answer;");
    assert_eq!(named_otherwise(&face, &other), ["seg2_lenient_file"]);
}

#[test]
fn the_header_lays_structs_out_as_the_library_does() {
    let library = structs_of_the_face();
    let declared = structs_of_the_header();
    let names: Vec<&String> = library.keys().collect();
    assert_eq!(declared.keys().collect::<Vec<_>>(), names);
    assert_eq!(names.len(), 21);
    // a program that prints what the compiler makes of the header
    let mut program = String::from("#include \"seg2.h\"\n#include <stdio.h>\nint main(void) {\n");
    for (name, fields) in &declared {
        program += &format!("    printf(\"{name} %zu\", sizeof(struct {name}));\n");
        for Field { name: field, .. } in fields {
            let of = format!("struct {name}");
            program += &format!(
                "    printf(\" %zu %zu\", offsetof({of}, {field}), sizeof((({of} *)0)->{field}));\n"
            );
        }
        program += "    printf(\"\\n\");\n";
    }
    program += "    return 0;\n}\n";
    let source = Temporary::new("layout.c");
    std::fs::write(source.path(), program).expect("a source for the test");
    let program = compiled("cc", &["-std=c99"], source.path(), "layout").expect("a C compiler");
    let mut seen = 0;
    for line in printed(&program).lines() {
        let (name, numbers) = line.split_once(' ').expect("numbers");
        let numbers: Vec<usize> = numbers
            .split(' ')
            .map(|n| n.parse().expect("a number"))
            .collect();
        let fields = numbers[1..].chunks(2).map(|f| (f[0], f[1])).collect();
        assert_eq!((numbers[0], fields), library[name].layout, "{name}");
        seen += 1;
    }
    assert_eq!(seen, library.len());
}

/// Offset and size of each field of a raw struct, and the fields' names.
macro_rules! raw_layout {
    ($kind:ty: $($field:ident),*) => {{
        fn size<T>(_: impl Fn(&$kind) -> &T) -> usize {
            size_of::<T>()
        }
        let fields = vec![$((
            offset_of!($kind, $field),
            size(|answer| &answer.$field),
        )),*];
        (stringify!($kind), vec![$(stringify!($field)),*], (size_of::<$kind>(), fields))
    }};
}

fn names(fields: &[Field]) -> Vec<&str> {
    fields.iter().map(|field| field.name.as_str()).collect()
}

#[test]
fn raw_lays_structs_out_as_the_library_does() {
    use seg2::raw::*;
    let table = [
        ("seg2_verdict", raw_layout!(Verdict: number, part, place)),
        (
            "seg2_file",
            raw_layout!(File: number, part, place, order, pointer_room, trace_count,
                string_terminator_size, line_terminator_size),
        ),
        (
            "seg2_trace",
            raw_layout!(Trace: number, part, place, start, block_size, data_size, sample_count, format_code),
        ),
        ("seg2_count", raw_layout!(Count: number, part, place, count)),
        (
            "seg2_string",
            raw_layout!(Text: number, part, place, found, key_start, key_length, value_start, value_length),
        ),
        (
            "seg2_keyword",
            raw_layout!(Keyword: number, part, place, found),
        ),
        (
            "seg2_value",
            raw_layout!(Value: number, part, place, value_start, value_length),
        ),
        (
            "seg2_number",
            raw_layout!(Number: number, part, place, minus, power, coefficient, decimals),
        ),
        (
            "seg2_double",
            raw_layout!(Double: number, part, place, value),
        ),
        (
            "seg2_location",
            raw_layout!(Location: number, part, place, count, x, y, z,
                x_decimals, y_decimals, z_decimals),
        ),
        (
            "seg2_length",
            raw_layout!(Length: number, part, place, length),
        ),
    ];
    let library = structs_of_the_face();
    let lenient = library.keys().filter(|name| is_lenient(name)).count();
    assert_eq!(table.len(), library.len() - lenient);
    let source = read(here().join("src/raw.rs"));
    for (name, (kind, fields, layout)) in table {
        assert_eq!(fields, names(&library[name].fields), "{name}");
        assert_eq!(layout, library[name].layout, "{name}");
        // the table above has all fields of the source, in its order
        let (_, body) = source
            .split_once(&format!("    {kind} {{"))
            .expect("the struct");
        let (body, _) = body.split_once('}').expect("its end");
        let own = body.split(',').filter_map(|f| f.split_once(':'));
        let own = own.map(|(field, _)| field.trim());
        let all: Vec<&str> = ["number", "part", "place"].into_iter().chain(own).collect();
        assert_eq!(fields, all, "{name}");
    }
}

fn is_lenient(name: &str) -> bool {
    name.starts_with("seg2_lenient_")
}

/// One struct of Rust stands for all lenient answers: each is told with the answer that it
/// holds.
#[test]
fn raw_lays_lenient_structs_out_as_the_library_does() {
    use seg2::raw::*;
    macro_rules! lenient {
        ($($name:literal $answer:ident),*) => {
            [$(($name, raw_layout!(Lenient<$answer>: answer, strict), size_of::<$answer>())),*]
        };
    }
    let table = lenient!(
        "verdict" Verdict, "file" File, "trace" Trace, "count" Count, "string" Text,
        "keyword" Keyword, "value" Value, "number" Number, "double" Double, "location" Location
    );
    let library = structs_of_the_face();
    let lenient = library.keys().filter(|name| is_lenient(name)).count();
    assert_eq!(table.len(), lenient);
    for (name, (_, fields, layout), answer) in table {
        let (own, held) = (format!("seg2_lenient_{name}"), format!("seg2_{name}"));
        let own = &library[&own];
        assert_eq!(fields, names(&own.fields), "{name}");
        assert_eq!(layout, own.layout, "{name}");
        assert_eq!(own.fields[0].within.as_deref(), Some(held.as_str()));
        assert_eq!(own.fields[1].within.as_deref(), Some("seg2_verdict"));
        assert_eq!(answer, library[&held].layout.0, "{name}");
    }
}

/// What a function answers, as the crates and the header say it: the struct's name in C.
#[test]
fn the_header_gives_each_function_the_librarys_answer() {
    let (face, header) = (face(), header());
    let mut seen = 0;
    for piece in face.split("extern \"C\" fn ").skip(1) {
        let (name, rest) = piece.split_once('(').expect("arguments");
        let (_, rest) = rest.split_once("-> ").expect("an answer");
        let answer = rest.split_whitespace().next().and_then(c_name);
        let answer = answer.expect("a struct of the face");
        let declared = declared_answer(&header, name);
        assert_eq!(declared, answer, "{name}");
        seen += 1;
    }
    assert_eq!(seen, functions_of_the_face().len());
}

/// The struct that a declaration returns, or that its first argument leads to.
fn declared_answer(header: &str, name: &str) -> String {
    let mark = format!(" {name}(");
    let line = header.lines().find(|line| {
        let before = line.split_once(&mark).map(|(before, _)| before);
        before.is_some_and(|b| !b.starts_with([' ', '#']) && !b.starts_with("static "))
    });
    let line = line.unwrap_or_else(|| panic!("{name} is not declared"));
    let (before, arguments) = line.split_once(&mark).expect("the name");
    let kind = match before {
        "void" => arguments.split_once(" *answer").expect("an answer").0,
        returned => returned,
    };
    kind.trim_start_matches("struct ").to_string()
}
