//! Rows 25 and 26: the lines of a sheet.

use super::character::{in_keyword, in_value, told};
use super::{order_found, quoted};
use seg2::Refusal;

/// The line that starts at the place of a refusal, with its number and what is wrong.
pub fn line_found(sheet: &[u8], refusal: &Refusal) -> String {
    let (before, rest) = sheet.split_at(refusal.place.min(sheet.len()));
    let number = before.iter().filter(|&&c| c == b'\n').count() + 1;
    let end = rest.iter().position(|&c| c == b'\n');
    let line = &rest[..end.unwrap_or(rest.len())];
    let last = keyword_of(before.strip_suffix(b"\n").unwrap_or(before));
    let why = match refusal.number {
        26 => order_found(last, keyword_of(line)),
        _ if end.is_none() => without_end(line),
        _ => bad_line(line, last),
    };
    format!("line {number}, {}: {why}", quoted(line))
}

/// The keyword of the last line.
fn keyword_of(lines: &[u8]) -> &[u8] {
    let line = lines.rsplit(|&c| c == b'\n').next().unwrap_or(lines);
    let tab = line.iter().position(|&c| c == b'\t');
    &line[..tab.unwrap_or(line.len())]
}

fn without_end(line: &[u8]) -> String {
    match marked(line) {
        Some(mark) => mark,
        None => "the last line has no line end (0Ah)".into(),
    }
}

/// What an editor has put before the first line.
fn marked(line: &[u8]) -> Option<String> {
    let mark = match line {
        [0xEF, 0xBB, 0xBF, ..] => "it starts with a byte order mark (EFh BBh BFh)",
        [0xFF, 0xFE, ..] | [0xFE, 0xFF, ..] => "the sheet is UTF-16 and no plain text",
        _ => return None,
    };
    Some(mark.into())
}

fn bad_line(line: &[u8], last: &[u8]) -> String {
    if let Some(mark) = marked(line) {
        return mark;
    }
    if line.is_empty() {
        return "it is empty".into();
    }
    if line.ends_with(b"\r") {
        return "it ends with 0Dh 0Ah, and a line end is 0Ah alone".into();
    }
    let Some(tab) = line.iter().position(|&c| c == b'\t') else {
        return without_tab(line);
    };
    let keyword = &line[..tab];
    // only the second line of a NOTE and those behind it may start with a space
    let goes_on = keyword == b"NOTE" && last == b"NOTE";
    bad_keyword(keyword).unwrap_or_else(|| bad_value(line, tab + 1, goes_on))
}

fn bad_keyword(keyword: &[u8]) -> Option<String> {
    if keyword.is_empty() {
        return Some("the keyword is missing before the tab".into());
    }
    let bad = keyword.iter().position(|&c| !in_keyword(c))?;
    let said = told(&keyword[bad..]);
    Some(format!("character {} is {said}, in the keyword", bad + 1))
}

/// What is wrong with the value, which starts behind the tab.
fn bad_value(line: &[u8], start: usize, goes_on: bool) -> String {
    let value = &line[start..];
    if value.starts_with(b" ") && !goes_on {
        return "the value starts with a space".into();
    }
    let bad = value.iter().position(|&c| !in_value(c)).unwrap_or(0);
    let said = told(&value[bad..]);
    let second = match value.get(bad) {
        Some(b'\t') => ", the second one",
        _ => "",
    };
    let place = start + bad + 1;
    format!("character {place} is {said}{second}, in the value")
}

fn without_tab(line: &[u8]) -> String {
    if line.contains(&b' ') {
        return "it has no tab: spaces stand between keyword and value".into();
    }
    "it has no tab behind the keyword".into()
}

#[cfg(test)]
mod tests {
    use super::*;

    fn told_of(sheet: &[u8]) -> String {
        let refusal = seg2::Builder::start(seg2::Order::Low, 1, sheet).expect_err("a bad sheet");
        assert!(matches!(refusal.number, 25 | 26), "{refusal}");
        line_found(sheet, &refusal)
    }

    #[test]
    fn a_bad_line_is_told_with_its_number_and_reason() {
        for (sheet, said) in [
            (&b"A\t1\r\n"[..], "line 1, `A\\t1\\r`: it ends with 0Dh 0Ah, and a line end is 0Ah alone"),
            (b"A\t1\nB 2\n", "line 2, `B 2`: it has no tab: spaces stand between keyword and value"),
            (b"A\t1\nB\n", "line 2, `B`: it has no tab behind the keyword"),
            (b"A\t1\n\nC\t3\n", "line 2, ``: it is empty"),
            (b"A\t1\nC\t3", "line 2, `C\\t3`: the last line has no line end (0Ah)"),
            (b"\xEF\xBB\xBFA\t1\n", "line 1, `\\xef\\xbb\\xbfA\\t1`: it starts with a byte order mark (EFh BBh BFh)"),
            (b"\xEF\xBB\xBFA\t1", "line 1, `\\xef\\xbb\\xbfA\\t1`: it starts with a byte order mark (EFh BBh BFh)"),
            (b"\xFF\xFEA\0\t\0", "line 1, `\\xff\\xfeA\\x00\\t\\x00`: the sheet is UTF-16 and no plain text"),
            (b"\t1\n", "line 1, `\\t1`: the keyword is missing before the tab"),
            (b"STaCK\t1\n", "line 1, `STaCK\\t1`: character 3 is `a` (61h), a small letter, in the keyword"),
            (b" A\t1\n", "line 1, ` A\\t1`: character 1 is a space (20h), in the keyword"),
            ("É\t1\n".as_bytes(), "line 1, `\\xc3\\x89\\t1`: character 1 is `É` (C3h 89h), no ASCII character, in the keyword"),
            (b"A\t 1\n", "line 1, `A\\t 1`: the value starts with a space"),
            (b"NOTE\t 1\n", "line 1, `NOTE\\t 1`: the value starts with a space"),
            (b"A\t1\t2\n", "line 1, `A\\t1\\t2`: character 4 is a tab (09h), the second one, in the value"),
            ("A\tcafé\n".as_bytes(), "line 1, `A\\tcaf\\xc3\\xa9`: character 6 is `é` (C3h A9h), no ASCII character, in the value"),
            (b"NOTE\tx\nNOTE\t y\x07\n", "line 2, `NOTE\\t y\\x07`: character 8 is 07h, a control character, in the value"),
            (b"B\t1\nA\t2\n", "line 2, `A\\t2`: `A` follows `B`, and comes before it"),
            (b"B\t1\nB\t2\n", "line 2, `B\\t2`: `B` is there twice"),
            (b"NOTE\t1\nZ\t2\n", "line 2, `Z\\t2`: `Z` follows NOTE, which comes last"),
        ] {
            assert_eq!(told_of(sheet), said);
        }
    }

    #[test]
    fn the_told_character_of_any_bad_line_is_the_one() {
        let mut rng = seg2_reference::generate::Rng::new(404);
        let mut seen = 0;
        for _ in 0..4000 {
            let mut sheet = seg2_reference::generate::sheet_case(&mut rng).sheet;
            let start = |sheet: &[u8]| seg2::Builder::start(seg2::Order::Low, 1, sheet);
            let Some(refusal) = start(&sheet).err().filter(|refusal| refusal.number == 25) else {
                continue;
            };
            let words = line_found(&sheet, &refusal);
            let Some((_, rest)) = words.split_once(": character ") else {
                continue;
            };
            let place = rest.split(' ').next().and_then(|n| n.parse::<usize>().ok());
            sheet[refusal.place + place.expect("a number") - 1] = b'A';
            if let Err(refusal) = start(&sheet) {
                assert_ne!(line_found(&sheet, &refusal), words);
            }
            seen += 1;
        }
        assert!(seen > 100, "{seen}");
    }
}
