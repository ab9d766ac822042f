//! Lent memory inside larger pieces, so that a byte written before or behind what
//! was lent is seen.

use seg2_reference::generate::Rng;
use std::ops::Range;

/// Elements before and behind what is lent; bytes get up to 15 more in front, so that
/// they start at any place beside a multiple of 16.
const MARGIN: usize = 48;

/// What stands around lent memory. Neighbours differ, so that no run of equal
/// elements written there goes unseen.
pub trait Pattern: Copy + PartialEq + std::fmt::Debug {
    /// Whether the memory may start at any place.
    const ANYWHERE: bool;
    fn at(index: usize, seed: u64) -> Self;
}

impl Pattern for u8 {
    const ANYWHERE: bool = true;
    fn at(index: usize, seed: u64) -> u8 {
        (index as u8).wrapping_mul(37).wrapping_add(seed as u8)
    }
}

impl Pattern for i32 {
    const ANYWHERE: bool = false;
    fn at(index: usize, seed: u64) -> i32 {
        (index as i32)
            .wrapping_mul(0x0123_4567)
            .wrapping_sub(seed as i32)
    }
}

impl Pattern for u64 {
    const ANYWHERE: bool = false;
    fn at(index: usize, seed: u64) -> u64 {
        (index as u64)
            .wrapping_mul(0x9E37_79B9_7F4A_7C15)
            .wrapping_sub(seed)
    }
}

impl Pattern for usize {
    const ANYWHERE: bool = false;
    fn at(index: usize, seed: u64) -> usize {
        u64::at(index, seed) as usize
    }
}

/// A lent piece with a pattern around it.
#[derive(Clone, Debug)]
pub struct Frame<T> {
    all: Vec<T>,
    size: usize,
    before: Vec<T>,
    behind: Vec<T>,
}

impl<T: Pattern> Frame<T> {
    pub fn new(seed: u64, contents: &[T]) -> Frame<T> {
        let front = MARGIN + if T::ANYWHERE { (seed % 16) as usize } else { 0 };
        let pattern = |range: Range<usize>| range.map(|i| T::at(i, seed)).collect();
        let mut frame = Frame {
            all: Vec::new(),
            size: 0,
            before: pattern(0..front),
            behind: pattern(front..front + MARGIN),
        };
        frame.lend(contents);
        frame
    }

    /// Other contents from now on.
    pub fn lend(&mut self, contents: &[T]) {
        self.size = contents.len();
        self.all.clear();
        self.all.extend(&self.before);
        self.all.extend(contents);
        self.all.extend(&self.behind);
    }

    pub fn size(&self) -> usize {
        self.size
    }

    /// The first lent element, by a pointer that may also reach the pattern, and how
    /// many there are.
    pub fn place(&mut self) -> (*mut T, usize) {
        let size = self.size;
        let (all, front) = self.whole();
        // SAFETY: there are more elements than those in front.
        (unsafe { all.as_mut_ptr().add(front) }, size)
    }

    pub fn contents(&self) -> &[T] {
        let front = self.before.len();
        &self.all[front..front + self.size]
    }

    /// What is lent, to be changed.
    pub fn contents_mut(&mut self) -> &mut [T] {
        let front = self.before.len();
        &mut self.all[front..front + self.size]
    }

    /// The whole piece and where what is lent starts in it.
    pub fn whole(&mut self) -> (&mut [T], usize) {
        (&mut self.all, self.before.len())
    }

    /// What is wrong with the piece, if its contents have to be these.
    fn fault(&self, name: &str, expected: &[T]) -> Option<String> {
        let (before, rest) = self.all.split_at(self.before.len());
        let (contents, behind) = rest.split_at(self.size);
        if before != self.before {
            return Some(format!("written before the {name}"));
        }
        if behind != self.behind {
            return Some(format!("written behind the {name}"));
        }
        if contents == expected {
            return None;
        }
        let at = contents.iter().zip(expected).position(|(a, b)| a != b);
        let at = at.unwrap_or(contents.len().min(expected.len()));
        let (a, b) = (contents.get(at), expected.get(at));
        Some(format!("{name} at {at}: archive {a:?}, reference {b:?}"))
    }
}

/// What a caller lends: contents only.
#[derive(Clone, Debug, Default, PartialEq, Eq)]
pub struct Memory {
    pub buffer: Vec<u8>,
    pub key: Vec<u8>,
    pub sheet: Vec<u8>,
    pub integers: Vec<i32>,
    pub patterns: Vec<u64>,
    pub classes: Vec<u8>,
    /// Where strings stand, four numbers each.
    pub strings: Vec<usize>,
    /// What a number is read from, or written to.
    pub text: Vec<u8>,
}

/// The rows that questions fill.
#[derive(Clone, Debug, Default, PartialEq, Eq)]
pub struct Rows {
    pub integers: Vec<i32>,
    pub patterns: Vec<u64>,
    pub classes: Vec<u8>,
    pub strings: Vec<usize>,
}

impl Rows {
    /// Rows for so many samples, classes and numbers of strings, with something in them: a
    /// refusal has to leave it.
    pub fn junk(rng: &mut Rng, samples: usize, classes: usize, strings: usize) -> Rows {
        Rows {
            integers: (0..samples).map(|_| rng.bits() as i32).collect(),
            patterns: (0..samples).map(|_| rng.bits()).collect(),
            classes: rng.junk(classes),
            strings: (0..strings).map(|_| rng.bits() as usize).collect(),
        }
    }
}

impl Memory {
    pub fn rows(&self) -> Rows {
        Rows {
            integers: self.integers.clone(),
            patterns: self.patterns.clone(),
            classes: self.classes.clone(),
            strings: self.strings.clone(),
        }
    }
}

/// The same, each piece inside a larger one.
#[derive(Clone, Debug)]
pub struct Lent {
    pub buffer: Frame<u8>,
    pub key: Frame<u8>,
    pub sheet: Frame<u8>,
    pub integers: Frame<i32>,
    pub patterns: Frame<u64>,
    pub classes: Frame<u8>,
    pub strings: Frame<usize>,
    pub text: Frame<u8>,
    /// Something was written beside an answer's place.
    pub beside_answer: bool,
}

impl Lent {
    pub fn new(seed: u64) -> Lent {
        Lent {
            buffer: Frame::new(seed, &[]),
            key: Frame::new(seed >> 8, &[]),
            sheet: Frame::new(seed >> 16, &[]),
            integers: Frame::new(seed >> 24, &[]),
            patterns: Frame::new(seed >> 32, &[]),
            classes: Frame::new(seed >> 40, &[]),
            text: Frame::new(seed >> 48, &[]),
            strings: Frame::new(seed >> 56, &[]),
            beside_answer: false,
        }
    }

    /// What is lent, without what stands around it.
    pub fn contents(&self) -> Memory {
        Memory {
            buffer: self.buffer.contents().to_vec(),
            key: self.key.contents().to_vec(),
            sheet: self.sheet.contents().to_vec(),
            integers: self.integers.contents().to_vec(),
            patterns: self.patterns.contents().to_vec(),
            classes: self.classes.contents().to_vec(),
            strings: self.strings.contents().to_vec(),
            text: self.text.contents().to_vec(),
        }
    }

    /// What is lent becomes this: as many elements in each piece as there are.
    pub fn hold(&mut self, memory: &Memory) {
        self.buffer.contents_mut().copy_from_slice(&memory.buffer);
        self.key.contents_mut().copy_from_slice(&memory.key);
        self.sheet.contents_mut().copy_from_slice(&memory.sheet);
        let integers = self.integers.contents_mut();
        integers.copy_from_slice(&memory.integers);
        let patterns = self.patterns.contents_mut();
        patterns.copy_from_slice(&memory.patterns);
        self.classes.contents_mut().copy_from_slice(&memory.classes);
        self.strings.contents_mut().copy_from_slice(&memory.strings);
        self.text.contents_mut().copy_from_slice(&memory.text);
    }

    /// The first piece whose contents are not these, or around which something was
    /// written.
    pub fn fault(&self, expected: &Memory) -> Option<String> {
        if self.beside_answer {
            return Some("written beside the answer".into());
        }
        self.buffer
            .fault("buffer", &expected.buffer)
            .or_else(|| self.key.fault("keyword", &expected.key))
            .or_else(|| self.sheet.fault("sheet", &expected.sheet))
            .or_else(|| self.integers.fault("row of integers", &expected.integers))
            .or_else(|| self.patterns.fault("row of bits", &expected.patterns))
            .or_else(|| self.classes.fault("row of classes", &expected.classes))
            .or_else(|| self.strings.fault("row of strings", &expected.strings))
            .or_else(|| self.text.fault("text of a number", &expected.text))
    }
}
