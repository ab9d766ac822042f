//! Models of files: what a file says, with all freedoms of the rules.

use super::rng::Rng;
use crate::strings::REPEATED;
use crate::words::Order;
use std::collections::BTreeSet;

/// A file to lay out.
#[derive(Clone, Debug)]
pub struct Model {
    pub order: Order,
    /// M is four times this.
    pub slots: u16,
    pub string_terminator: Vec<u8>,
    pub line_terminator: Vec<u8>,
    /// Second terminator bytes where a terminator has one character: ignored.
    pub unused: [u8; 2],
    /// Bytes 14 to 31: ignored.
    pub reserved: Vec<u8>,
    /// The slots behind the N used ones: ignored.
    pub spare_slots: Vec<u8>,
    pub area: AreaModel,
    pub traces: Vec<TraceModel>,
    /// Bytes after the last trace: allowed.
    pub after: Vec<u8>,
    /// Bytes of the buffer past the length: not part of the file.
    pub beyond: Vec<u8>,
}

#[derive(Clone, Debug)]
pub struct AreaModel {
    pub strings: Vec<StringModel>,
    pub end: End,
}

/// How an area ends behind its strings.
#[derive(Clone, Debug)]
pub enum End {
    /// The end mark, and ignored bytes.
    Mark(Vec<u8>),
    /// Nothing: right for an empty area only.
    Nothing,
    /// One byte: never right.
    Byte(u8),
}

#[derive(Clone, Debug)]
pub struct StringModel {
    pub keyword: Vec<u8>,
    pub separators: Vec<u8>,
    /// The value's lines; one unless the string is a NOTE.
    pub lines: Vec<Vec<u8>>,
}

#[derive(Clone, Debug)]
pub struct TraceModel {
    /// Bytes between the previous end and this trace: allowed.
    pub gap: Vec<u8>,
    /// Bytes 13 to 31: ignored.
    pub reserved: Vec<u8>,
    pub area: AreaModel,
    pub samples: SamplesModel,
    /// Data bytes behind the needed ones: ignored.
    pub slack: Vec<u8>,
}

/// The samples by their code.
#[derive(Clone, Debug)]
pub enum SamplesModel {
    Code1(Vec<i16>),
    Code2(Vec<i32>),
    Code3(Vec<Float20>),
    Code4(Vec<u32>),
    Code5(Vec<u64>),
}

/// A code 3 sample: sign and magnitude of the mantissa. Minus 0 is FFFFh.
#[derive(Clone, Copy, Debug)]
pub struct Float20 {
    pub exponent: u16,
    pub minus: bool,
    pub magnitude: u16,
}

impl SamplesModel {
    pub fn code(&self) -> u8 {
        match self {
            SamplesModel::Code1(_) => 1,
            SamplesModel::Code2(_) => 2,
            SamplesModel::Code3(_) => 3,
            SamplesModel::Code4(_) => 4,
            SamplesModel::Code5(_) => 5,
        }
    }

    pub fn count(&self) -> usize {
        match self {
            SamplesModel::Code1(row) => row.len(),
            SamplesModel::Code2(row) => row.len(),
            SamplesModel::Code3(row) => row.len(),
            SamplesModel::Code4(row) => row.len(),
            SamplesModel::Code5(row) => row.len(),
        }
    }

    /// What the integer question must answer, if it may be asked.
    pub fn integers(&self) -> Option<Vec<i32>> {
        match self {
            SamplesModel::Code1(row) => Some(row.iter().map(|&v| i32::from(v)).collect()),
            SamplesModel::Code2(row) => Some(row.clone()),
            SamplesModel::Code3(row) => Some(row.iter().map(|f| f.value()).collect()),
            _ => None,
        }
    }

    /// What the bits question must answer, if it may be asked: patterns, and
    /// classes as the machine's own floating point tells them.
    pub fn bits(&self) -> Option<(Vec<u64>, Vec<u8>)> {
        match self {
            SamplesModel::Code4(row) => Some((
                row.iter().map(|&v| u64::from(v)).collect(),
                row.iter()
                    .map(|&v| class(f32::from_bits(v).classify()))
                    .collect(),
            )),
            SamplesModel::Code5(row) => Some((
                row.clone(),
                row.iter()
                    .map(|&v| class(f64::from_bits(v).classify()))
                    .collect(),
            )),
            _ => None,
        }
    }
}

fn class(category: std::num::FpCategory) -> u8 {
    match category {
        std::num::FpCategory::Zero => 0,
        std::num::FpCategory::Subnormal => 1,
        std::num::FpCategory::Normal => 2,
        std::num::FpCategory::Infinite => 3,
        std::num::FpCategory::Nan => 4,
    }
}

impl Float20 {
    pub fn value(self) -> i32 {
        let magnitude = i32::from(self.magnitude) << self.exponent;
        if self.minus {
            -magnitude
        } else {
            magnitude
        }
    }
}

impl AreaModel {
    /// Bytes of the strings alone, without what ends the area.
    pub fn strings_size(&self, string_terminator: &[u8], line_terminator: &[u8]) -> usize {
        self.strings
            .iter()
            .map(|s| 2 + s.body(line_terminator).len() + string_terminator.len())
            .sum()
    }
}

impl StringModel {
    /// Keyword, separators and value.
    pub fn body(&self, line_terminator: &[u8]) -> Vec<u8> {
        let value = self.lines.join(line_terminator);
        [&self.keyword[..], &self.separators, &value].concat()
    }
}

impl Model {
    /// A valid file with at least one trace; in half of them every trace has a channel
    /// number.
    pub fn random(rng: &mut Rng) -> Model {
        let n = if rng.one_in(12) {
            rng.between(6, 40)
        } else {
            rng.between(1, 4)
        };
        let spare = rng.pick(&[0, 0, 1, 2, 5, 60]);
        let mut model = Model::without_traces(rng, n + spare);
        model.traces = (0..n).map(|_| TraceModel::random(rng)).collect();
        model.choose_channels(rng);
        // Bytes before the first trace belong to the file's area: what stands
        // behind its end mark is the gap there.
        model.traces[0].gap.clear();
        model.spare_slots.truncate(4 * spare);
        let after = rng.pick(&[0, 0, 1, 4, 7, 40]);
        model.after = rng.junk(after);
        model
    }

    /// An image with N=0, which an addition accepts and the reader does not. Its
    /// area, and so its length, need not be a multiple of 4.
    pub fn image(rng: &mut Rng) -> Model {
        let slots = rng.pick(&[1, 2, 3, 50]);
        let mut model = Model::without_traces(rng, slots);
        model.choose_channels(rng);
        model
    }

    fn without_traces(rng: &mut Rng, slots: usize) -> Model {
        let (string_terminator, line_terminator) = random_terminators(rng);
        let beyond = rng.pick(&[0, 0, 1, 33, 200]);
        Model {
            order: rng.pick(&[Order::Low, Order::High]),
            slots: slots as u16,
            string_terminator,
            line_terminator,
            unused: [rng.byte(), rng.byte()],
            reserved: rng.junk(18),
            spare_slots: rng.junk(4 * slots),
            area: AreaModel::random(rng),
            traces: Vec::new(),
            after: Vec::new(),
            beyond: rng.junk(beyond),
        }
    }

    /// The area of a part; -1 is the file.
    pub fn area(&self, part: i64) -> &AreaModel {
        match part {
            -1 => &self.area,
            trace => &self.traces[trace as usize].area,
        }
    }

    /// The same, to be changed.
    pub fn area_mut(&mut self, part: i64) -> &mut AreaModel {
        match part {
            -1 => &mut self.area,
            trace => &mut self.traces[trace as usize].area,
        }
    }
}

/// One or two characters each out of 0 to 31 without tab, none shared; two equal
/// characters are allowed.
fn random_terminators(rng: &mut Rng) -> (Vec<u8>, Vec<u8>) {
    let mut free: Vec<u8> = if rng.one_in(2) {
        vec![0x00, 0x0A, 0x0D, 0x1F]
    } else {
        (0..=31).filter(|&c| c != 9).collect()
    };
    let string = random_terminator(rng, &free);
    free.retain(|c| !string.contains(c));
    let line = random_terminator(rng, &free);
    (string, line)
}

fn random_terminator(rng: &mut Rng, free: &[u8]) -> Vec<u8> {
    let first = rng.pick(free);
    match rng.between(0, 3) {
        0 | 1 => vec![first],
        2 => vec![first, first],
        _ => vec![first, rng.pick(free)],
    }
}

const KEYWORDS: &[&str] = &[
    "ACQUISITION_DATE",
    "ACQUISITION_TIME",
    "CLIENT",
    "COMPANY",
    "DELAY",
    "INSTRUMENT",
    "LINE_ID",
    "RECEIVER",
    "RECEIVER_GEOMETRY",
    "RECEIVER_LOCATION",
    "SAMPLE_INTERVAL",
    "SOURCE",
    "SOURCE_GEOMETRY",
    "SOURCE_LOCATION",
    "STACK",
    "TRACE_SORT",
    "UNITS",
];

/// Unknown keywords, prefixes of each other, and neighbours of NOTE, of CHANNEL_NUMBER and
/// of what may repeat.
const ODD_KEYWORDS: &[&str] = &[
    "!",
    "0",
    "A",
    "AB",
    "ABC",
    "CHANNEL",
    "CHANNEL_NUMBE",
    "CHANNEL_NUMBER1",
    "CHANNEL_NUMBERS",
    "N",
    "NO",
    "NOT",
    "NOTE!",
    "NOTE0",
    "NOTES",
    "NOTE_",
    "O",
    "RECEIVER_GEOMETR",
    "RECEIVER_GEOMETRYS",
    "SOURCE_GEOMETRY1",
    "Z",
    "ZZ",
    "_",
    "`",
    "{",
    "~",
    "~~",
];

/// Any keyword but NOTE.
fn random_keyword(rng: &mut Rng) -> Vec<u8> {
    match rng.between(0, 3) {
        0 => rng.pick(ODD_KEYWORDS).into(),
        1 | 2 => rng.pick(KEYWORDS).into(),
        _ => {
            let length = rng.between(1, 7);
            let mut word: Vec<u8> = (0..length).map(|_| random_keyword_character(rng)).collect();
            if word == b"NOTE" {
                word.push(b'X');
            }
            word
        }
    }
}

fn random_keyword_character(rng: &mut Rng) -> u8 {
    match rng.between(0, 9) {
        0 => rng.between(123, 126) as u8,
        _ => rng.between(33, 96) as u8,
    }
}

/// Keywords in byte order, without NOTE: each once, but for those that may repeat.
pub(super) fn rising_keywords(rng: &mut Rng, at_most: usize) -> Vec<Vec<u8>> {
    let mut keywords: BTreeSet<Vec<u8>> = (0..at_most).map(|_| random_keyword(rng)).collect();
    if at_most > 0 && rng.one_in(4) {
        keywords.insert(rng.pick(&REPEATED).to_vec());
    }
    let mut rising = Vec::new();
    for keyword in keywords {
        let times = match may_repeat(&keyword) {
            true => rng.pick(&[1, 1, 2, 3, 6]),
            false => 1,
        };
        rising.extend(std::iter::repeat_n(keyword, times));
    }
    rising
}

pub(super) fn may_repeat(keyword: &[u8]) -> bool {
    REPEATED.contains(&keyword)
}

/// A text that no separator can swallow: empty, or not starting with a blank. It
/// may end with blanks. Tabs only where they are allowed.
pub(super) fn random_text(rng: &mut Rng, tabs: bool) -> Vec<u8> {
    match rng.between(0, 9) {
        0 | 1 => Vec::new(),
        2 => rng.pick(&["12", "-34.6", "0.020", "METERS", "x  "]).into(),
        kind => {
            let length = if kind == 3 {
                rng.between(100, 400)
            } else {
                rng.between(1, 18)
            };
            let mut text = random_line(rng, length, tabs);
            text[0] = rng.between(33, 126) as u8;
            text
        }
    }
}

/// So many value characters, blanks at either end included.
fn random_line(rng: &mut Rng, length: usize, tabs: bool) -> Vec<u8> {
    (0..length)
        .map(|_| match rng.between(0, 11) {
            0 if tabs => b'\t',
            1 | 2 => b' ',
            _ => rng.between(32, 126) as u8,
        })
        .collect()
}

/// The lines of a NOTE: the first is a text, later ones may start with blanks.
pub(super) fn random_note_lines(rng: &mut Rng, tabs: bool) -> Vec<Vec<u8>> {
    let mut lines = vec![random_text(rng, tabs)];
    for _ in 0..rng.pick(&[0, 0, 1, 2, 4]) {
        let length = rng.pick(&[0, 0, 1, 5, 12]);
        lines.push(random_line(rng, length, tabs));
    }
    lines
}

impl StringModel {
    /// Separators may be missing only when nothing at all follows the keyword.
    pub fn new(rng: &mut Rng, keyword: Vec<u8>, lines: Vec<Vec<u8>>) -> StringModel {
        let nothing_follows = lines.concat().is_empty() && lines.len() == 1;
        let least = if nothing_follows { 0 } else { 1 };
        let count = rng.pick(&[least, least, 1, 2, 4]);
        let separators = (0..count).map(|_| rng.pick(b"  \t")).collect();
        StringModel {
            keyword,
            separators,
            lines,
        }
    }

    pub fn note(rng: &mut Rng, lines: Vec<Vec<u8>>) -> StringModel {
        StringModel::new(rng, b"NOTE".to_vec(), lines)
    }
}

impl AreaModel {
    pub fn random(rng: &mut Rng) -> AreaModel {
        let at_most = rng.pick(&[0, 1, 2, 3, 6]);
        let mut strings = Vec::new();
        for keyword in rising_keywords(rng, at_most) {
            let text = random_text(rng, true);
            strings.push(StringModel::new(rng, keyword, vec![text]));
        }
        if rng.one_in(3) {
            let lines = random_note_lines(rng, true);
            strings.push(StringModel::note(rng, lines));
        }
        let ignored = rng.pick(&[0, 0, 1, 3, 8, 21]);
        let end = if strings.is_empty() && rng.one_in(2) {
            End::Nothing
        } else {
            End::Mark(rng.junk(ignored))
        };
        AreaModel { strings, end }
    }
}

impl TraceModel {
    pub(super) fn random(rng: &mut Rng) -> TraceModel {
        let gap = rng.pick(&[0, 0, 0, 4, 8, 40]);
        let slack = rng.pick(&[0, 0, 1, 4, 30]);
        let code = rng.between(1, 5);
        let (gap, reserved) = (rng.junk(gap), rng.junk(19));
        let area = AreaModel::random(rng);
        let count = rng.pick(&[0, 1, 2, 3, 4, 8, 17]);
        TraceModel {
            gap,
            reserved,
            area,
            samples: SamplesModel::random(rng, code, count),
            slack: rng.junk(slack),
        }
    }
}

impl SamplesModel {
    /// So many samples; under code 3 as many of them as make whole groups.
    pub fn random(rng: &mut Rng, code: usize, count: usize) -> SamplesModel {
        match code {
            1 => SamplesModel::Code1((0..count).map(|_| random_i32(rng) as i16).collect()),
            2 => SamplesModel::Code2((0..count).map(|_| random_i32(rng)).collect()),
            3 => {
                let count = count / 4 * 4;
                SamplesModel::Code3((0..count).map(|_| random_float20(rng)).collect())
            }
            4 => SamplesModel::Code4((0..count).map(|_| random_code_4(rng)).collect()),
            _ => SamplesModel::Code5((0..count).map(|_| random_code_5(rng)).collect()),
        }
    }
}

/// Edges, small numbers and any numbers.
pub(super) fn random_i32(rng: &mut Rng) -> i32 {
    match rng.between(0, 2) {
        0 => rng.pick(&[
            0,
            1,
            -1,
            255,
            256,
            32_767,
            32_768,
            -32_768,
            -32_769,
            0x3FFF_FFFF,
            -0x3FFF_FFFF,
            i32::MAX,
            i32::MIN,
        ]),
        1 => rng.between(0, 65_535) as i32 - 32_768,
        _ => rng.bits() as i32,
    }
}

fn random_float20(rng: &mut Rng) -> Float20 {
    let any = rng.between(0, 32_767) as u16;
    Float20 {
        exponent: rng.between(0, 15) as u16,
        minus: rng.one_in(2),
        magnitude: rng.pick(&[0, 1, 25_000, 32_767, any, any]),
    }
}

/// Sign, exponent bits and fraction, each often all 0 or all 1.
pub(super) fn random_code_4(rng: &mut Rng) -> u32 {
    let any = rng.bits() as u32;
    let exponent = rng.pick(&[0, 0xFF, 127, 1, 254, (any >> 23) & 0xFF]);
    let fraction = rng.pick(&[0, 1, 0x7F_FFFF, any & 0x7F_FFFF]);
    (any & 0x8000_0000) | (exponent << 23) | fraction
}

pub(super) fn random_code_5(rng: &mut Rng) -> u64 {
    let any = rng.bits();
    let exponent = rng.pick(&[0, 0x7FF, 1023, 1, 2046, (any >> 52) & 0x7FF]);
    let fraction = rng.pick(&[0, 1, 0xF_FFFF_FFFF_FFFF, any & 0xF_FFFF_FFFF_FFFF]);
    (any & (1 << 63)) | (exponent << 52) | fraction
}
