//! Writes questions and writings with the independent reader's answers, for replay.c to ask of an archive. With a number
//! behind its name: not all, but about so many of each function, evenly taken, for an emulator.
//!
//! Part of the differential tests of host/seg2, in a form that needs no Rust on the machine that the archive is for. The
//! answers are those of host/reference, which shares no code with the proved library; the same seed gives the same bytes
//! everywhere. Everything is a 64-bit number, low byte first; bytes and rows have their length before them.

use seg2_reference as reference;
use reference::generate::{
    addition_case, damaged, forged_number, location_case, mutated, mutated_old, number_case, number_edges, old_case, plain_file,
    quick_case, sample_case, several_damages, start_case, Model, PlainTrace, QuickAsked, QuickTold, Rng, SampleQuestion, WAYS,
};
use reference::{Number, Order, Question, Refusal, Row, StringPlace, Trace, TraceGiven};
use std::collections::BTreeSet;
use std::io::Write;

/// The exported functions by the numbers that replay.c knows them by. NEW_BUFFER is none, but tells the buffer of the
/// vectors behind it; END is none either, and the number of vectors stands behind it.
const NEW_BUFFER: u64 = 0;
const CHECK: u64 = 1;
const FILE_BLOCK: u64 = 2;
const TRACE_BLOCK: u64 = 3;
const STRING_COUNT: u64 = 4;
const STRING: u64 = 5;
const STRINGS: u64 = 6;
const KEYWORD: u64 = 7;
const VALUE: u64 = 8;
const NUMBER: u64 = 9;
const DOUBLE: u64 = 10;
const LOCATION: u64 = 11;
const INTEGERS: u64 = 12;
const BITS: u64 = 13;
/// So far behind each question of a part, TRACE_BLOCK to BITS, stands its quick form.
const QUICK: u64 = 11;
/// So far behind each question, CHECK to BITS, stands its lenient form.
const LENIENT: u64 = 24;
const READ_NUMBER: u64 = 38;
const START_SIZE: u64 = 39;
const ADD_SIZE: u64 = 40;
const START: u64 = 41;
const ADD_INTEGERS: u64 = 42;
const ADD_BITS: u64 = 43;
const WRITE_NUMBER: u64 = 44;
const FUNCTIONS: usize = 45;
const END: u64 = u64::MAX;

type Answer = Result<Vec<u64>, Refusal>;

struct Out {
    /// The vector that is being written, or a buffer; both go on to `all` when the next begins.
    open: Vec<u8>,
    all: Vec<u8>,
    vectors: u64,
    /// Whether the open one is a buffer, and the last buffer until a vector that is taken needs it.
    is_buffer: bool,
    buffer: Vec<u8>,
    /// The open one's function, how many of each there were, and every how many-th of each is taken.
    function: usize,
    seen: [u64; FUNCTIONS],
    every: [u64; FUNCTIONS],
}

impl Out {
    fn new(every: [u64; FUNCTIONS]) -> Out {
        Out {
            open: Vec::new(),
            all: Vec::new(),
            vectors: 0,
            is_buffer: false,
            buffer: Vec::new(),
            function: 0,
            seen: [0; FUNCTIONS],
            every,
        }
    }

    /// Settles what is open: a buffer waits, and a vector is taken, behind its buffer, or left.
    fn settle(&mut self) {
        let open = std::mem::take(&mut self.open);
        if self.is_buffer {
            self.buffer = open;
            return;
        }
        if open.is_empty() {
            return;
        }
        if self.seen[self.function] % self.every[self.function] == 0 {
            self.all.append(&mut self.buffer);
            self.all.extend_from_slice(&open);
            self.vectors += 1;
        }
        self.seen[self.function] += 1;
    }

    fn number(&mut self, value: u64) {
        self.open.extend_from_slice(&value.to_le_bytes());
    }

    fn bytes(&mut self, bytes: &[u8]) {
        self.number(bytes.len() as u64);
        self.open.extend_from_slice(bytes);
    }

    fn row(&mut self, row: &[u64]) {
        self.number(row.len() as u64);
        for &value in row {
            self.number(value);
        }
    }

    /// The buffer of the questions that follow.
    fn buffer(&mut self, buffer: &[u8], length: usize) {
        self.settle();
        self.is_buffer = true;
        self.number(NEW_BUFFER);
        self.bytes(buffer);
        self.number(length as u64);
    }

    /// Opens a vector: which function, and what it is given beside the buffer.
    fn ask(&mut self, function: u64, part: i32, index: u64, text: &[u8]) {
        self.settle();
        self.is_buffer = false;
        self.function = function as usize;
        self.number(function);
        self.number(part as i64 as u64);
        self.number(index);
        self.bytes(text);
    }

    /// Closes it: the refusal, and `fields` numbers, all 0 after a refusal.
    fn told(&mut self, fields: usize, answer: Answer) {
        let (refusal, values) = match answer {
            Ok(values) => (None, values),
            Err(refusal) => (Some(refusal), vec![0; fields]),
        };
        assert_eq!(values.len(), fields);
        self.refusal(refusal);
        self.row(&values);
    }

    /// Number, part and place.
    fn refusal(&mut self, refusal: Option<Refusal>) {
        let refusal = refusal.unwrap_or(Refusal::new(0, -1, 0));
        self.number(u64::from(refusal.number));
        self.number(refusal.part as u64);
        self.number(refusal.place);
    }
}

fn order_of(order: Order) -> u64 {
    match order {
        Order::Low => 0,
        Order::High => 1,
    }
}

fn check(out: &mut Out, buffer: &[u8], length: usize) {
    fully(buffer, length, -1).check(out);
}

fn file_block(out: &mut Out, buffer: &[u8], length: usize) {
    fully(buffer, length, -1).file_block(out);
}

/// How a question is asked.
#[derive(Clone, Copy)]
enum Way {
    /// By the one that checks the whole file.
    Full,
    /// By that of one trace (document 02, §5).
    Quick,
    /// By the lenient one (§11), beside whose answer stands the strict check's row.
    Lenient { strict: Option<Refusal> },
}

/// A part that is asked about; the file itself too, whose questions take none.
#[derive(Clone, Copy)]
struct Asked<'a> {
    buffer: &'a [u8],
    length: usize,
    part: i32,
    way: Way,
}

/// The reference's answer to a question by the way in which it is asked.
macro_rules! answer {
    ($asked:ident: $full:ident, $quick:ident, $lenient:ident $(, $given:expr)*) => {{
        let Asked { buffer, length, part, way } = *$asked;
        match way {
            Way::Full => reference::$full(buffer, length, part.into() $(, $given)*),
            Way::Quick => reference::$quick(buffer, length, part.into() $(, $given)*),
            Way::Lenient { .. } => reference::$lenient(buffer, length, part.into() $(, $given)*).answer,
        }
    }};
}

impl Asked<'_> {
    /// Opens the vector of a question.
    fn ask(&self, out: &mut Out, full: u64, index: u64, text: &[u8]) {
        let function = match self.way {
            Way::Full => full,
            Way::Quick => full + QUICK,
            Way::Lenient { .. } => full + LENIENT,
        };
        out.ask(function, self.part, index, text);
    }

    /// Closes it; rows stand behind that.
    fn told(&self, out: &mut Out, fields: usize, answer: Answer) {
        out.told(fields, answer);
        if let Way::Lenient { strict } = self.way {
            out.refusal(strict);
        }
    }

    fn is_lenient(&self) -> bool {
        matches!(self.way, Way::Lenient { .. })
    }

    fn check(&self, out: &mut Out) {
        let checked = match self.is_lenient() {
            true => reference::lenient_check(self.buffer, self.length).answer,
            false => reference::check(self.buffer, self.length),
        };
        self.check_told(out, checked.map(|_| ()));
    }

    fn check_told(&self, out: &mut Out, checked: Result<(), Refusal>) {
        self.ask(out, CHECK, 0, b"");
        self.told(out, 0, checked.map(|()| Vec::new()));
    }

    fn file_block(&self, out: &mut Out) {
        self.ask(out, FILE_BLOCK, 0, b"");
        let block = match self.is_lenient() {
            true => reference::lenient_file_block(self.buffer, self.length).answer,
            false => reference::file_block(self.buffer, self.length),
        };
        self.told(out, 5, block.map(|b| {
            let terminators = [b.string_terminator.len() as u64, b.line_terminator.len() as u64];
            vec![order_of(b.order), u64::from(b.m), u64::from(b.n), terminators[0], terminators[1]]
        }));
    }

    fn block(&self, out: &mut Out) {
        self.block_told(out, answer!(self: trace_block, quick_trace_block, lenient_trace_block));
    }

    fn block_told(&self, out: &mut Out, block: Result<Trace, Refusal>) {
        self.ask(out, TRACE_BLOCK, 0, b"");
        self.told(out, 5, block.map(|t| {
            vec![u64::from(t.p), u64::from(t.b), u64::from(t.d), u64::from(t.s), u64::from(t.code)]
        }));
    }

    fn count(&self) -> Result<usize, Refusal> {
        answer!(self: string_count, quick_string_count, lenient_string_count)
    }

    fn count_told(&self, out: &mut Out, count: Result<usize, Refusal>) {
        self.ask(out, STRING_COUNT, 0, b"");
        self.told(out, 1, count.map(|n| vec![n as u64]));
    }

    fn string(&self, index: u64) -> Result<Option<StringPlace>, Refusal> {
        answer!(self: string, quick_string, lenient_string, index as usize)
    }

    fn string_told(&self, out: &mut Out, index: u64, string: Result<Option<StringPlace>, Refusal>) {
        self.ask(out, STRING, index, b"");
        self.told(out, 5, string.map(|found| match found {
            Some(s) => [&[1], &s.numbers().map(|n| n as u64)[..]].concat(),
            None => vec![0; 5],
        }));
    }

    fn strings_told(&self, out: &mut Out, row: usize, told: Result<Vec<usize>, Refusal>) {
        self.ask(out, STRINGS, 0, b"");
        out.number(row as u64);
        self.told(out, 0, told.clone().map(|_| Vec::new()));
        out.row(&told.map_or(vec![PAINT; row], |row| row.iter().map(|&n| n as u64).collect()));
    }

    /// All questions about its strings: count, each by its index and past the last, and in rows of the right size and others.
    fn strings(&self, out: &mut Out) {
        let count = self.count();
        self.count_told(out, count);
        let count = count.unwrap_or(0) as u64;
        for index in (0..count).chain([count, count + 1, u64::MAX]) {
            self.string_told(out, index, self.string(index));
        }
        for size in [4 * count, 4 * count + 1, count] {
            let mut row = vec![0; size as usize];
            let told = answer!(self: all_strings, quick_strings, lenient_strings, &mut row);
            self.strings_told(out, size as usize, told.map(|()| row));
        }
    }

    /// What it holds under a keyword: all questions that name one.
    fn keyword(&self, out: &mut Out, key: &[u8]) {
        let Asked { buffer, length, part, way } = *self;
        let found = match way {
            Way::Full => reference::keyword_string(buffer, length, part.into(), key),
            Way::Quick => reference::quick_search(buffer, length, part.into(), key).answer,
            Way::Lenient { .. } => reference::lenient_keyword_string(buffer, length, part.into(), key).answer,
        };
        self.keyword_told(out, key, found.map(|string| string.map(|s| s.value)));
    }

    fn keyword_told(&self, out: &mut Out, key: &[u8], value: Result<Option<std::ops::Range<usize>>, Refusal>) {
        let range = value.clone().map(|value| value.unwrap_or(0..0));
        let text = range.clone().map(|range| &self.buffer[range]);
        self.ask(out, KEYWORD, 0, key);
        self.told(out, 1, value.map(|value| vec![u64::from(value.is_some())]));
        self.ask(out, VALUE, 0, key);
        self.told(out, 2, range.map(|range| vec![range.start as u64, range.len() as u64]));
        self.ask(out, NUMBER, 0, key);
        self.told(out, 4, text.and_then(reference::number).map(number_fields));
        self.ask(out, DOUBLE, 0, key);
        self.told(out, 1, text.and_then(reference::double).map(|d| vec![d.to_bits()]));
        self.ask(out, LOCATION, 0, key);
        self.told(out, 7, text.and_then(reference::location).map(|l| {
            let values = [u64::from(l.count), l.x.to_bits(), l.y.to_bits(), l.z.to_bits()];
            [&values[..], &l.decimals.map(u64::from)].concat()
        }));
    }

    /// Both questions about its samples, into rows of such a size.
    fn samples(&self, out: &mut Out, size: usize) {
        let mut row = vec![0; size];
        let told = answer!(self: samples_as_integers, quick_integers, lenient_integers, &mut row);
        self.integers_told(out, size, told.map(|()| row));
        let (mut row, mut classes) = (vec![0; size], vec![0; size]);
        let told = answer!(self: samples_as_bits, quick_bits, lenient_bits, &mut row, &mut classes);
        self.bits_told(out, size, size, told.map(|()| (row, classes)));
    }

    fn integers_told(&self, out: &mut Out, row: usize, told: Result<Vec<i32>, Refusal>) {
        self.ask(out, INTEGERS, 0, b"");
        out.number(row as u64);
        self.told(out, 0, told.clone().map(|_| Vec::new()));
        out.row(&told.map_or(vec![PAINT; row], |row| row.iter().map(|&v| v as i64 as u64).collect()));
    }

    fn bits_told(&self, out: &mut Out, row: usize, classes: usize, told: Result<(Vec<u64>, Vec<u8>), Refusal>) {
        self.ask(out, BITS, 0, b"");
        out.number(row as u64);
        out.number(classes as u64);
        self.told(out, 0, told.clone().map(|_| Vec::new()));
        let (row, classes) = told.unwrap_or_else(|_| (vec![PAINT; row], vec![PAINT as u8; classes]));
        out.row(&row);
        out.bytes(&classes);
    }
}

/// A row before a question that fills it: no sample's value and no place, so a byte that stays is told from one that is
/// written.
const PAINT: u64 = 0x5A5A_5A5A_5A5A_5A5A;

fn fully(buffer: &[u8], length: usize, part: i32) -> Asked<'_> {
    Asked { buffer, length, part, way: Way::Full }
}

/// Both ways to ask about a trace of a file that keeps the rules.
fn both_ways(buffer: &[u8], length: usize, part: i32) -> [Asked<'_>; 2] {
    [Way::Full, Way::Quick].map(|way| Asked { buffer, length, part, way })
}

fn leniently(buffer: &[u8], length: usize, part: i32) -> Asked<'_> {
    let strict = reference::check(buffer, length).err();
    Asked { buffer, length, part, way: Way::Lenient { strict } }
}

fn number_fields(n: Number) -> Vec<u64> {
    vec![u64::from(n.minus), n.power as i64 as u64, n.coefficient, u64::from(n.decimals)]
}

/// Every question of every part, and of parts that there are not.
fn all_questions(out: &mut Out, rng: &mut Rng, buffer: &[u8], length: usize) {
    out.buffer(buffer, length);
    check(out, buffer, length);
    file_block(out, buffer, length);
    let traces = reference::file_block(buffer, length).map_or(0, |b| i32::from(b.n));
    for part in (-1..traces).chain([-2, traces, i32::MIN, i32::MAX]) {
        let mut keys: Vec<Vec<u8>> = vec![b"".to_vec(), b"NOTE".to_vec(), b"no".to_vec(), rng.junk(5)];
        for index in 0..reference::string_count(buffer, length, i64::from(part)).unwrap_or(0) {
            if let Ok(Some(s)) = reference::string(buffer, length, i64::from(part), index) {
                keys.push(buffer[s.keyword.clone()].to_vec());
                keys.push(buffer[s.keyword.start..s.keyword.end - 1].to_vec());
            }
        }
        for asked in both_ways(buffer, length, part) {
            asked.block(out);
            asked.strings(out);
            keys.iter().for_each(|key| asked.keyword(out, key));
        }
    }
}

/// A value that a line of a sheet may hold.
fn is_value(text: &[u8]) -> bool {
    text.first() != Some(&b' ') && text.iter().all(|c| (32..=126).contains(c))
}

fn valid_files(out: &mut Out, rng: &mut Rng) {
    for _ in 0..60 {
        let laid = Model::random(rng).lay();
        all_questions(out, rng, &laid.buffer, laid.length);
    }
}

fn damaged_files(out: &mut Out, rng: &mut Rng) {
    for way in WAYS {
        for _ in 0..4 {
            let case = damaged(rng, way);
            out.buffer(&case.buffer, case.length);
            check(out, &case.buffer, case.length);
            file_block(out, &case.buffer, case.length);
            for asked in both_ways(&case.buffer, case.length, 0) {
                asked.block(out);
                Asked { part: if let Way::Full = asked.way { -1 } else { 0 }, ..asked }.strings(out);
                asked.keyword(out, b"DELAY");
            }
        }
    }
}

fn broken_files(out: &mut Out, rng: &mut Rng) {
    for round in 0..6000 {
        let (buffer, length) = if round % 3 == 0 {
            let case = several_damages(rng);
            (case.buffer, case.length)
        } else {
            mutated(rng)
        };
        out.buffer(&buffer, length);
        check(out, &buffer, length);
        if round % 60 == 0 {
            all_questions(out, rng, &buffer, length);
        }
    }
}

/// Questions of one trace, on files that are broken where they look and where they do not; the answers are those that the
/// file was laid out for.
fn one_trace(out: &mut Out, rng: &mut Rng) {
    for _ in 0..3000 {
        let case = quick_case(rng);
        let Ok(part) = i32::try_from(case.trace) else { continue };
        out.buffer(&case.buffer, case.length);
        let asked = Asked { buffer: &case.buffer, length: case.length, part, way: Way::Quick };
        for QuickAsked { question, expected, .. } in case.asked {
            as_laid(out, asked, question, expected);
        }
    }
}

/// A question and what the layout tells it.
fn as_laid(out: &mut Out, asked: Asked, question: Question, expected: Result<QuickTold, Refusal>) {
    /// The value of the kind that the question asks for.
    macro_rules! told {
        ($kind:pat => $value:expr) => {
            expected.map(|told| match told {
                $kind => $value,
                other => panic!("{other:?} is no answer to the question"),
            })
        };
    }
    match question {
        Question::Block => asked.block_told(out, told!(QuickTold::Block(block) => block)),
        Question::Count => asked.count_told(out, told!(QuickTold::Count(count) => count)),
        Question::String { index } => asked.string_told(out, index as u64, told!(QuickTold::String(found) => found)),
        Question::Strings { row } => asked.strings_told(out, row, told!(QuickTold::Strings(row) => row)),
        Question::Keyword { key } => asked.keyword_told(out, &key, told!(QuickTold::Keyword(value) => value)),
        Question::Integers { row } => asked.integers_told(out, row, told!(QuickTold::Integers(row) => row)),
        Question::Bits { row, classes } => {
            asked.bits_told(out, row, classes, told!(QuickTold::Bits(row, classes) => (row, classes)));
        }
    }
}

fn any_bytes(out: &mut Out, rng: &mut Rng) {
    for _ in 0..300 {
        let size = rng.between(0, 120);
        let buffer = rng.junk(size);
        for length in [0, 31, 32, size, size + 1, usize::MAX] {
            out.buffer(&buffer, length);
            check(out, &buffer, length);
        }
    }
}

/// Files of older recorders (document 02, §11), as they are and damaged, of some all that can be asked; what both checks say
/// of them is what they were laid out for. And such files with random changes.
fn older_recorders(out: &mut Out, rng: &mut Rng) {
    for round in 0..1200 {
        let case = old_case(rng);
        let asked = leniently(&case.buffer, case.length, -1);
        out.buffer(&case.buffer, case.length);
        check(out, &case.buffer, case.length);
        let lenient = Way::Lenient { strict: case.strict };
        Asked { way: lenient, ..asked }.check_told(out, case.lenient.map(|_| ()));
        asked.file_block(out);
        if round % 16 == 0 {
            lenient_questions(out, asked);
        }
        let (buffer, length) = mutated_old(rng);
        out.buffer(&buffer, length);
        leniently(&buffer, length, -1).check(out);
    }
}

/// Every lenient question of every part, and of some that there are not.
fn lenient_questions(out: &mut Out, file: Asked) {
    let block = reference::lenient_file_block(file.buffer, file.length).answer;
    let traces = block.map_or(0, |b| i32::from(b.n));
    for part in (-1..traces).chain([-2, traces]) {
        let asked = Asked { part, ..file };
        let block = reference::lenient_trace_block(file.buffer, file.length, part.into()).answer;
        let samples = block.map_or(2, |t| t.s as usize);
        asked.block(out);
        asked.strings(out);
        asked.samples(out, samples);
        asked.samples(out, samples + 1);
        lenient_keys(asked).iter().for_each(|key| asked.keyword(out, key));
    }
}

/// Keys to ask of a part: NOTE, one that is none, and each keyword as it stands and as it counts.
fn lenient_keys(asked: Asked) -> BTreeSet<Vec<u8>> {
    let mut keys = BTreeSet::from([b"NOTE".to_vec(), b"note".to_vec()]);
    for index in 0..asked.count().unwrap_or(0) as u64 {
        if let Ok(Some(s)) = asked.string(index) {
            let keyword = &asked.buffer[s.keyword];
            keys.extend([keyword.to_vec(), keyword.to_ascii_uppercase()]);
        }
    }
    keys
}

/// A text with a number or a location in it, or nearly, that a value may be.
fn typed_value(rng: &mut Rng) -> Vec<u8> {
    loop {
        let text = if rng.one_in(2) { number_case(rng).text } else { location_case(rng).text };
        if is_value(&text) {
            return text;
        }
    }
}

/// Numbers and locations as values of an older recorder: of the first DELAY, in lower case.
fn older_numbers(out: &mut Out, rng: &mut Rng) {
    for _ in 0..400 {
        let string = [b"delay ", &typed_value(rng)[..]].concat();
        let strings = [&string[..], b"DELAY 1"];
        let order = rng.pick(&[Order::Low, Order::High]);
        let file = plain_file(order, &strings, &[PlainTrace::of_strings(&strings)]);
        out.buffer(&file, file.len());
        leniently(&file, file.len(), rng.pick(&[-1, 0])).keyword(out, b"DELAY");
    }
}

/// Numbers and locations as values; most files have no such values by chance.
fn numbers(out: &mut Out, rng: &mut Rng) {
    for _ in 0..1500 {
        let text = typed_value(rng);
        let sheet = [b"DELAY\t", &text[..], b"\n"].concat();
        let trace = TraceGiven { sheet: sheet.clone(), code: 2, row: Row::Integers(vec![7]) };
        let order = rng.between(0, 1) as u32;
        let file = reference::file_of(order, 1, &sheet, &[trace]).expect("a list that defines a file");
        out.buffer(&file, file.len());
        for asked in both_ways(&file, file.len(), 0) {
            asked.keyword(out, b"DELAY");
        }
        fully(&file, file.len(), -1).keyword(out, b"DELAY");
    }
}

/// A text as a number, any bytes; and its number written back.
fn typed(out: &mut Out, rng: &mut Rng, text: &[u8]) {
    let read = reference::number(text);
    out.buffer(b"", 0);
    out.ask(READ_NUMBER, 0, 0, text);
    out.told(4, read.map(number_fields));
    if let Ok(number) = read {
        write_number(out, rng, number, 24);
        write_number(out, rng, number, text.len());
    }
}

/// A number written in a room of so many bytes; any minus that is not 0 is one.
fn write_number(out: &mut Out, rng: &mut Rng, number: Number, room: usize) {
    let mut bytes = rng.junk(room);
    let minus = rng.pick(&[1, 2, u32::MAX]) * u32::from(number.minus);
    out.buffer(&bytes, 0);
    out.ask(WRITE_NUMBER, 0, 0, b"");
    out.number(u64::from(minus));
    out.number(number.coefficient);
    out.number(number.power as i64 as u64);
    out.number(u64::from(number.decimals));
    out.told(1, reference::write_number(&mut bytes, number).map(|n| vec![n as u64]));
    out.bytes(&bytes);
}

/// Document 02, §4: texts that are typed, and numbers that no text gives.
fn texts_of_numbers(out: &mut Out, rng: &mut Rng) {
    for _ in 0..1500 {
        let text = number_case(rng).text;
        typed(out, rng, &text);
        let size = rng.between(0, 12);
        let any: Vec<u8> = (0..size).map(|_| rng.pick(b"-.E0123456789 0E.-\xFF")).collect();
        typed(out, rng, &any);
    }
    for number in number_edges() {
        let room = rng.between(0, 30);
        write_number(out, rng, number, room);
    }
    for _ in 0..1500 {
        let number = forged_number(rng);
        for room in [0, 30, rng.between(0, 30)] {
            write_number(out, rng, number, room);
        }
    }
}

fn samples(out: &mut Out, rng: &mut Rng) {
    for _ in 0..2500 {
        let case = sample_case(rng);
        let Ok(part) = i32::try_from(case.trace) else { continue };
        out.buffer(&case.buffer, case.length);
        // The file keeps the rules, so both ways are told the same, a trace that is not there included.
        for asked in both_ways(&case.buffer, case.length, part) {
            match &case.question {
                SampleQuestion::Integers { row, expected } => asked.integers_told(out, *row, expected.clone()),
                SampleQuestion::Bits { row, classes, expected } => asked.bits_told(out, *row, *classes, expected.clone()),
            }
        }
    }
}

fn starts(out: &mut Out, rng: &mut Rng) {
    for _ in 0..600 {
        let case = start_case(rng);
        let Ok(slots) = u32::try_from(case.slots) else { continue };
        out.buffer(&case.buffer, 0);
        out.ask(START_SIZE, 0, 0, &case.sheet);
        out.number(u64::from(case.order));
        out.number(u64::from(slots));
        out.told(1, reference::start_size(case.order, case.slots, &case.sheet).map(|n| vec![n as u64]));
        out.ask(START, 0, 0, &case.sheet);
        out.number(u64::from(case.order));
        out.number(u64::from(slots));
        out.told(1, case.expected.map(|n| vec![n as u64]));
        out.bytes(&case.after);
    }
}

fn additions(out: &mut Out, rng: &mut Rng) {
    for _ in 0..2500 {
        let case = addition_case(rng);
        out.buffer(&case.buffer, case.length);
        let (function, row): (u64, Vec<u64>) = match &case.row {
            Row::Integers(row) => (ADD_INTEGERS, row.iter().map(|&v| v as i64 as u64).collect()),
            Row::Bits(row) => (ADD_BITS, row.clone()),
        };
        // its own samples, whole groups of them, and more than a file may have
        for count in [row.len(), row.len() & !3, usize::MAX - row.len()] {
            out.ask(ADD_SIZE, 0, count as u64, &case.sheet);
            out.number(u64::from(case.code));
            let room = reference::add_size(&case.buffer, case.length, &case.sheet, case.code, count);
            out.told(1, room.map(|n| vec![n as u64]));
        }
        out.ask(function, 0, 0, &case.sheet);
        out.number(u64::from(case.code));
        out.row(&row);
        out.told(1, case.expected.map(|n| vec![n as u64]));
        out.bytes(&case.after);
    }
}

/// All vectors, of each function every how many-th.
fn written(every: [u64; FUNCTIONS]) -> Out {
    let mut out = Out::new(every);
    let mut rng = Rng::new(20_261_115);
    let parts = [
        valid_files, damaged_files, broken_files, one_trace, any_bytes, numbers, texts_of_numbers, samples, starts, additions,
        older_recorders, older_numbers,
    ];
    for part in parts {
        part(&mut out, &mut rng);
    }
    out.settle();
    out
}

fn main() {
    let mut out = written([1; FUNCTIONS]);
    if let Some(word) = std::env::args().nth(1) {
        let about: u64 = word.parse().expect("how many of each function");
        out = written(out.seen.map(|n| (n / about).max(1)));
    }
    out.number(END);
    out.number(out.vectors);
    let mut to = std::io::stdout().lock();
    to.write_all(&out.all).and_then(|()| to.write_all(&out.open)).and_then(|()| to.flush()).expect("standard output takes the vectors");
}
