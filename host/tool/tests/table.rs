//! The refusal table stands in crates/refusal/specs/Table.antt alone. Each place that has
//! words for its numbers, or repeats them, is held to it here: a number without words is
//! found, and so are words for a number that is not in the table.

mod common;

use common::{text, tool};
use std::collections::BTreeMap;
use std::path::PathBuf;

/// Numbers with what a place calls them, or says of them.
type Rows = BTreeMap<u32, String>;

fn read(name: &str) -> String {
    let path = PathBuf::from(env!("CARGO_MANIFEST_DIR"))
        .join("../..")
        .join(name);
    std::fs::read_to_string(&path).unwrap_or_else(|error| panic!("{name}: {error}"))
}

/// What stands between two marks of a page.
fn between<'a>(page: &'a str, from: &str, to: &str) -> &'a str {
    let (_, rest) = page.split_once(from).unwrap_or_else(|| panic!("no {from}"));
    let (part, _) = rest
        .split_once(to)
        .unwrap_or_else(|| panic!("{from} has no end"));
    part
}

/// Rows by their numbers, each of which stands once and says something.
fn rows(place: &str, found: impl IntoIterator<Item = (u32, String)>) -> Rows {
    let mut rows = Rows::new();
    for (number, words) in found {
        assert!(!words.trim().is_empty(), "{place}: {number} has no words");
        let twice = rows.insert(number, words);
        assert_eq!(twice, None, "{place}: {number} stands there twice");
    }
    rows
}

/// The same numbers as the table has.
fn same_numbers(place: &str, found: &Rows) {
    let table = table();
    for (number, rule) in &table {
        assert!(
            found.contains_key(number),
            "{place} has nothing for {number} ({rule})"
        );
    }
    for (number, words) in found {
        let there = table.contains_key(number);
        assert!(there, "{place} has {number} ({words}), the table has not");
    }
}

/// The rules by their numbers, as the definition has them: `number_of rule.NAME = NUMBER`.
fn table() -> Rows {
    let definition = read("crates/refusal/specs/Table.antt");
    let clauses = definition.lines().filter_map(|line| {
        let (rule, number) = line.strip_prefix("number_of rule.")?.split_once(" = ")?;
        Some((number.parse().expect("a number"), rule.to_string()))
    });
    let table = rows("Table.antt", clauses);
    let written = definition
        .lines()
        .filter(|line| line.starts_with("number_of "));
    assert_eq!(table.len(), written.count(), "a clause of another form");
    assert!(!table.is_empty());
    table
}

/// The rules by their numbers, in capitals as C and Java write them: `FIRST_BYTES`.
fn capitals() -> Rows {
    let capital = |rule: &str| {
        let parts = rule.split_inclusive(|_: char| true);
        let spaced = parts.enumerate().map(|(i, letter)| {
            let starts = i > 0 && letter.chars().all(char::is_uppercase);
            format!("{}{letter}", if starts { "_" } else { "" })
        });
        spaced.collect::<String>().to_uppercase()
    };
    let table = table();
    table.iter().map(|(n, rule)| (*n, capital(rule))).collect()
}

/// `NAME = NUMBER` wherever the word before it stands. A name that has no number is an error.
fn named(lines: &str, before: &str) -> Vec<(u32, String)> {
    let name = |piece: &str| {
        let (name, rest) = piece.split_once(" = ").unwrap_or((piece, ""));
        let digits = rest.split(|c: char| !c.is_ascii_digit()).next();
        let number = digits.and_then(|digits| digits.parse().ok());
        let number = number.unwrap_or_else(|| panic!("no number: {before}{name}"));
        (number, name.to_string())
    };
    lines.split(before).skip(1).map(name).collect()
}

/// Each clause of the definition has its words in the line above it.
#[test]
fn the_definition_has_words_for_each_rule() {
    let definition = read("crates/refusal/specs/Table.antt");
    let (mut above, mut clauses) = ("", 0);
    for line in definition.lines() {
        if line.starts_with("number_of ") {
            clauses += 1;
            let words = above
                .strip_prefix("-- ")
                .is_some_and(|words| !words.is_empty());
            assert!(words, "no words above `{line}`");
        }
        above = line;
    }
    assert_eq!(clauses, table().len());
}

#[test]
fn the_header_names_each_rule_and_has_its_words() {
    let header = read("include/seg2.h");
    let names = named(between(&header, "enum seg2_refusal {", "};"), "SEG2_");
    let (accepted, names): (Vec<_>, Vec<_>) = names.into_iter().partition(|(n, _)| *n == 0);
    assert_eq!(accepted, [(0, "ACCEPTED".to_string())]);
    let names = rows("enum seg2_refusal", names);
    same_numbers("enum seg2_refusal", &names);
    assert_eq!(names, capitals());

    let said = between(&header, "*seg2_text(uint32_t number) {", "default:");
    let words = said.lines().filter_map(|line| {
        let (name, words) = line
            .trim()
            .strip_prefix("case SEG2_")?
            .split_once(": return \"")?;
        let number = names.iter().find(|(_, listed)| *listed == name);
        let words = words.strip_suffix("\";")?.to_string();
        match number {
            Some((number, _)) => Some((*number, words)),
            None => {
                assert_eq!(name, "ACCEPTED", "seg2_text has words for it");
                None
            }
        }
    });
    let words = rows("seg2_text", words);
    same_numbers("seg2_text", &words);
    for (number, words) in words {
        assert_eq!(seg2::text(number), words, "seg2_text and the wrapper");
    }
}

#[test]
fn the_wrapper_has_words_for_each_number() {
    let listed: Vec<u32> = seg2::numbers().collect();
    assert!(
        listed.is_sorted_by(|a, b| a < b),
        "rising, each once: {listed:?}"
    );
    let place = "seg2::text";
    let words = listed
        .into_iter()
        .map(|number| (number, seg2::text(number).to_string()));
    same_numbers(place, &rows(place, words));
}

/// By the tool itself, asked for every number of two digits.
#[test]
fn explain_has_each_number_and_no_other() {
    let said = |number: u32| {
        let out = tool().args(["explain", &number.to_string()]).output();
        let out = out.expect("the tool runs");
        out.status.success().then(|| (number, text(&out.stdout)))
    };
    let explained = rows("explain", (0..100).filter_map(said));
    same_numbers("explain", &explained);
    for (number, said) in explained {
        for (line, start) in said.lines().zip(["", "place: ", "rule: ", "to do: "]) {
            let words = line.strip_prefix(start).unwrap_or("");
            assert!(!words.trim().is_empty(), "explain {number}: {said}");
        }
    }
}

/// Its words are the header's (host/java/test).
#[test]
fn the_java_class_names_each_rule() {
    let class = read("host/java/src/wasinthao/seg2/Seg2.java");
    let constants = between(&class, "public static final class Refusal {", "/**");
    let names = rows("Seg2.java", named(constants, "public static final int "));
    same_numbers("Seg2.java", &names);
    assert_eq!(names, capitals());
}

/// What Rust's and Java's tests tell of each row (host/seg2/tests/header.rs, host/java/test).
#[test]
fn the_list_of_told_refusals_has_each_number() {
    let list = read("host/seg2/tests/refusals.txt");
    let mut told = Rows::new();
    for line in list.lines() {
        let (number, words) = line.split_once('\t').expect("a tab");
        told.insert(number.parse().expect("a number"), words.to_string());
    }
    same_numbers("refusals.txt", &told);
}

/// Its list is its own, and so are its words on whose row it is.
#[test]
fn the_reference_lists_each_number() {
    let listed = seg2_reference::ALL.iter();
    let listed: Vec<u32> = listed.map(|&number| number.into()).collect();
    assert!(
        listed.is_sorted_by(|a, b| a < b),
        "rising, each once: {listed:?}"
    );
    let place = "the reference's ALL";
    let found = listed.into_iter().map(|number| (number, "-".to_string()));
    same_numbers(place, &rows(place, found));
    for number in 0..100 {
        let refusal = seg2::Refusal {
            number: number.into(),
            part: -1,
            place: 0,
        };
        let of_check = seg2_reference::is_of_check(number);
        assert_eq!(refusal.is_of_check(), of_check, "{number}");
    }
}

/// The first two cells of a table's row.
fn cells(line: &str) -> Option<(&str, &str)> {
    let mut cells = line.strip_prefix('|')?.split('|').map(str::trim);
    Some((cells.next()?, cells.next()?))
}

#[test]
fn the_page_of_the_format_has_each_number() {
    let page = read("docs/FORMAT.md");
    let table = between(
        &page,
        "\n## Refusal numbers, in order of checking\n",
        "\n## ",
    );
    let found = table.lines().filter_map(|line| {
        let (number, when) = cells(line)?;
        Some((number.parse().ok()?, when.to_string()))
    });
    same_numbers("docs/FORMAT.md", &rows("docs/FORMAT.md", found));
}

/// The numbers that a cell starts with, as `24, 28 to 31`, and the words behind them.
fn leading(cell: &str) -> (Vec<u32>, &str) {
    let mut numbers: Vec<u32> = Vec::new();
    let mut rest = cell;
    loop {
        let end = rest
            .find(|c: char| !c.is_ascii_digit())
            .unwrap_or(rest.len());
        let Ok(number) = rest[..end].parse() else {
            return (numbers, rest);
        };
        // `28 to 31` is all of them
        match numbers.last() {
            Some(&first) if cell[..cell.len() - rest.len()].ends_with(" to ") => {
                numbers.extend(first + 1..=number);
            }
            _ => numbers.push(number),
        }
        rest = &rest[end..];
        match rest.strip_prefix(", ").or(rest.strip_prefix(" to ")) {
            Some(more) if more.starts_with(|c: char| c.is_ascii_digit()) => rest = more,
            _ => return (numbers, rest),
        }
    }
}

#[test]
fn leading_numbers_are_read() {
    assert_eq!(
        leading("7 32+M past the end"),
        (vec![7], " 32+M past the end")
    );
    assert_eq!(leading("24, 28 to 31 a"), (vec![24, 28, 29, 30, 31], " a"));
    assert_eq!(leading("12 not 1 to 5"), (vec![12], " not 1 to 5"));
    assert_eq!(leading("no row, 5"), (vec![], "no row, 5"));
}

#[test]
fn the_page_of_the_rules_has_each_number() {
    let page = read("docs/SPEC.md");
    let table = between(&page, "\n## Refusal numbers\n", "\n## ");
    let found = table.lines().filter_map(cells).flat_map(|(rule, _)| {
        let (numbers, words) = leading(rule);
        let rows = numbers
            .into_iter()
            .map(|number| (number, words.to_string()));
        rows.collect::<Vec<_>>()
    });
    same_numbers("docs/SPEC.md", &rows("docs/SPEC.md", found));
}
