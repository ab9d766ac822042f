//! The archive on memory that ends where a page ends: what reads or writes one byte
//! past a lent piece, or before it, ends the program.
//!
//! A pattern around memory shows what is written there. It does not show what is only
//! read.

use crate::answer::Answer;
use crate::call::{Archive, Call, Library, Places};
use crate::lent::{Frame, Lent, Pattern};
use crate::questions::{Question, Told};
use std::cell::Cell;
use std::ffi::c_void;
use std::ops::Range;
use std::ptr::null_mut;

extern "C" {
    fn mmap(
        at: *mut c_void,
        size: usize,
        rights: i32,
        kind: i32,
        file: i32,
        from: i64,
    ) -> *mut c_void;
    fn mprotect(at: *mut c_void, size: usize, rights: i32) -> i32;
    fn munmap(at: *mut c_void, size: usize) -> i32;
}

/// Linux's numbers: no rights; read and write; private memory without a file.
const NONE: i32 = 0;
const BOTH: i32 = 3;
const PRIVATE: i32 = 0x22;

/// A multiple of every page size in use.
const PAGE: usize = 65_536;

/// So many bytes of memory between two pages without rights.
struct Pages {
    start: *mut u8,
    size: usize,
}

impl Pages {
    fn new(size: usize) -> Pages {
        let size = size.next_multiple_of(PAGE).max(PAGE);
        // SAFETY: new memory, of which the first and the last page lose their rights.
        unsafe {
            let start = mmap(null_mut(), size + 2 * PAGE, BOTH, PRIVATE, -1, 0);
            assert_ne!(start as isize, -1, "no memory");
            let start = start.cast::<u8>();
            let behind = start.add(PAGE + size);
            for guard in [start, behind] {
                assert_eq!(mprotect(guard.cast(), PAGE, NONE), 0);
            }
            Pages { start, size }
        }
    }

    /// Where so many elements stand right at the end, or right at the start.
    fn place<T>(&self, count: usize, at_end: bool) -> *mut T {
        let from = match at_end {
            true => self.size - count * size_of::<T>(),
            false => 0,
        };
        // SAFETY: within the pages, which are enough.
        unsafe { self.start.add(PAGE + from).cast() }
    }
}

impl Drop for Pages {
    fn drop(&mut self) {
        // SAFETY: what `new` has mapped.
        unsafe { munmap(self.start.cast(), self.size + 2 * PAGE) };
    }
}

/// The archive with each lent piece at an end of its own pages.
pub struct Guarded {
    pages: [Pages; 8],
    at_end: bool,
}

impl Guarded {
    /// Pieces of up to so many bytes.
    pub fn new(most: usize, at_end: bool) -> Guarded {
        let pages = std::array::from_fn(|_| Pages::new(most));
        Guarded { pages, at_end }
    }

    /// Reads the byte right beside the first piece: the program ends.
    pub fn read_beside(&self) -> u8 {
        let pages = &self.pages[0];
        let beside = match self.at_end {
            true => pages.place::<u8>(0, true),
            false => pages.place::<u8>(0, false).wrapping_sub(1),
        };
        // SAFETY: none; a byte without rights, which the machine does not give out.
        unsafe { beside.read_volatile() }
    }

    /// The piece's contents copied to its pages.
    fn lend<T: Pattern>(&self, page: usize, frame: &Frame<T>) -> (*mut T, usize) {
        let contents = frame.contents();
        let pages = &self.pages[page];
        assert!(size_of_val(contents) <= pages.size);
        let place = pages.place::<T>(contents.len(), self.at_end);
        // SAFETY: there is room, and the frame is no part of the pages.
        unsafe { place.copy_from_nonoverlapping(contents.as_ptr(), contents.len()) };
        (place, contents.len())
    }
}

/// The contents copied back.
fn take_back<T: Pattern>((place, size): (*mut T, usize), frame: &mut Frame<T>) {
    // SAFETY: what was lent above.
    let contents = unsafe { std::slice::from_raw_parts(place, size) };
    frame.contents_mut().copy_from_slice(contents);
}

impl Library for Guarded {
    fn call(&self, call: Call, length: usize, lent: &mut Lent) -> Answer {
        let places = Places {
            buffer: self.lend(0, &lent.buffer),
            key: self.lend(1, &lent.key),
            sheet: self.lend(2, &lent.sheet),
            integers: self.lend(3, &lent.integers),
            patterns: self.lend(4, &lent.patterns),
            classes: self.lend(5, &lent.classes),
            text: self.lend(6, &lent.text),
            strings: self.lend(7, &lent.strings),
        };
        // SAFETY: each piece has its own pages.
        let answer = unsafe { Archive::call_at(call, length, &places, &mut lent.beside_answer) };
        take_back(places.buffer, &mut lent.buffer);
        take_back(places.key, &mut lent.key);
        take_back(places.sheet, &mut lent.sheet);
        take_back(places.integers, &mut lent.integers);
        take_back(places.patterns, &mut lent.patterns);
        take_back(places.classes, &mut lent.classes);
        take_back(places.text, &mut lent.text);
        take_back(places.strings, &mut lent.strings);
        answer
    }
}

/// One buffer on pages of which all are closed but those that hold a byte which a question
/// of one trace looks at (document 02, §5).
pub struct Sparse {
    pages: Pages,
    closed: Cell<usize>,
}

impl Sparse {
    /// A buffer of up to so many bytes.
    pub fn new(most: usize) -> Sparse {
        Sparse {
            pages: Pages::new(most),
            closed: Cell::new(0),
        }
    }

    /// How many pages were closed, in all calls together.
    pub fn closed(&self) -> usize {
        self.closed.get()
    }

    /// A question of one trace of an image that fills the buffer: what it looks at stands on
    /// open pages.
    pub fn ask(&self, question: &Question, image: &[u8]) -> Told {
        let read = question.read(image, image.len());
        self.call(question.quick(), question, image, &read)
    }

    /// A call with what a question is lent, where only the pages with these bytes are open.
    pub fn call(
        &self,
        call: Call,
        question: &Question,
        image: &[u8],
        open: &[Range<usize>],
    ) -> Told {
        let mut lent = Lent::new(0);
        lent.key.lend(&question.key);
        lent.integers.lend(&question.rows.integers);
        lent.patterns.lend(&question.rows.patterns);
        lent.classes.lend(&question.rows.classes);
        lent.strings.lend(&question.rows.strings);
        let places = Places {
            buffer: (self.lay(image), image.len()),
            ..Places::of(&mut lent)
        };
        self.close(image.len(), open);
        // SAFETY: each piece has its own place. Bytes of the buffer without rights are not
        // to be touched, which is what is tried: the machine does not give them out.
        let answer =
            unsafe { Archive::call_at(call, image.len(), &places, &mut lent.beside_answer) };
        (answer, lent.contents().rows())
    }

    /// The image at the start of open pages.
    fn lay(&self, image: &[u8]) -> *mut u8 {
        assert!(image.len() <= self.pages.size);
        let start = self.pages.place::<u8>(0, false);
        // SAFETY: what `new` has mapped, between the two guards, opened again.
        unsafe {
            assert_eq!(mprotect(start.cast(), self.pages.size, BOTH), 0);
            start.copy_from_nonoverlapping(image.as_ptr(), image.len());
        }
        start
    }

    /// Takes the rights of every page of the image that holds none of these bytes.
    fn close(&self, length: usize, read: &[Range<usize>]) {
        for from in (0..length).step_by(PAGE) {
            let page = from..from + PAGE;
            if read
                .iter()
                .any(|r| r.start < page.end && page.start < r.end)
            {
                continue;
            }
            // SAFETY: one of the pages that `new` has mapped.
            unsafe {
                let at = self.pages.place::<u8>(0, false).add(from);
                assert_eq!(mprotect(at.cast(), PAGE, NONE), 0);
            }
            self.closed.set(self.closed.get() + 1);
        }
    }
}
