//! A newer archive beside an older one, by turns on the same buffers in one run: whether a change
//! has slowed what was there before. Two archives have the same names and cannot both be linked,
//! so each comes as a shared library:
//! `cc -shared -o old.so -Wl,--whole-archive libseg2.a -Wl,--no-whole-archive`. Neither is the
//! linked one, as where code stands in a program alone makes up to a twentieth of its time; in
//! a library of its own each stands where it stands in every such library.

use crate::order_name;
use seg2::raw;
use seg2_bench::files::{file, file_with, unnumbered_sheet};
use seg2_bench::time::{least, Work};
use std::ffi::{c_char, c_int, c_void, CStr, CString};
use std::hint::black_box;
use std::mem::{transmute, MaybeUninit};

extern "C" {
    fn dlopen(name: *const c_char, flags: c_int) -> *mut c_void;
    fn dlsym(library: *mut c_void, name: *const c_char) -> *mut c_void;
}

/// All names are found when the library is loaded, not when a call is timed.
const RTLD_NOW: c_int = 2;

type Check = unsafe extern "C" fn(*const u8, usize, usize) -> raw::Verdict;
type Value = unsafe extern "C" fn(*mut raw::Value, *const u8, usize, usize, i32, *const u8, usize);

/// What is asked of an archive. Both are called by the same code, of which there is one.
struct Archive {
    check: Check,
    quick_value: Value,
}

impl Archive {
    /// None where there is no such library, or it lacks one of the two.
    fn open(path: &str) -> Option<Archive> {
        let path = CString::new(path).ok()?;
        // SAFETY: a name that ends with a 0; nothing of an archive runs as it is loaded
        let library = unsafe { dlopen(path.as_ptr(), RTLD_NOW) };
        let named = |name: &CStr| {
            // SAFETY: a library that is loaded and never closed, and a name that ends with a 0
            let at = unsafe { dlsym(library, name.as_ptr()) };
            (!at.is_null()).then_some(at)
        };
        if library.is_null() {
            return None;
        }
        let (check, value) = (named(c"seg2_check")?, named(c"seg2_quick_value")?);
        // SAFETY: in every version of include/seg2.h that has them, these are their arguments
        // and answers
        Some(unsafe {
            Archive {
                check: transmute::<*mut c_void, Check>(check),
                quick_value: transmute::<*mut c_void, Value>(value),
            }
        })
    }

    #[inline(never)]
    fn check(&self, file: &[u8]) -> raw::Verdict {
        // SAFETY: pointer and size of one slice
        unsafe { (self.check)(file.as_ptr(), file.len(), file.len()) }
    }

    #[inline(never)]
    fn stack(&self, file: &[u8], trace: i32) -> raw::Value {
        let mut answer = MaybeUninit::uninit();
        let (bytes, size, key) = (file.as_ptr(), file.len(), black_box(b"STACK"));
        let place = answer.as_mut_ptr();
        // SAFETY: a place for the answer, of which every field is written; pointer and size of
        // two slices
        unsafe {
            (self.quick_value)(place, bytes, size, size, trace, key.as_ptr(), key.len());
            answer.assume_init()
        }
    }
}

/// The table; none where one of the two is no such library.
pub fn table([older, newer]: [&str; 2], rounds: usize) -> Option<()> {
    let archives = [Archive::open(older)?, Archive::open(newer)?];
    println!("\nAn archive beside an older one: the check of a whole file, and the quick value of STACK in the trace in the middle.\n");
    println!("| traces | texts | order | check before us | now us | now/before | value before ns | now ns | now/before |");
    println!("|---|---|---|---|---|---|---|---|---|");
    let long = [b"COMMENT\t", &[b'x'; 2_000][..], b"\nSTACK\t4\n"].concat();
    let note = [b"NOTE\t", &[b'x'; 80][..], b"\n"].concat().repeat(25);
    let note = [&b"STACK\t4\n"[..], &note].concat();
    for order in [0, 1] {
        let short = |sheet: &dyn Fn(usize) -> Vec<u8>| file_with(order, 24, 1_000, sheet);
        let lines = [
            (24, "7 strings", file(order, 24, 1_000)),
            (24, "6, no channel", short(&unnumbered_sheet)),
            (24, "a long value", short(&|_| long.clone())),
            (24, "a NOTE of 25 lines", short(&|_| note.clone())),
            (2_000, "7 strings", file(order, 2_000, 1_000)),
        ];
        for (traces, texts, file) in lines {
            let [a, b, c, d] = compared(&archives, file, traces / 2, rounds);
            println!(
                "| {traces} | {texts} | {} | {:.3} | {:.3} | {:.3} | {c:.1} | {d:.1} | {:.3} |",
                order_name(order),
                a / 1e3,
                b / 1e3,
                b / a,
                d / c
            );
        }
    }
    Some(())
}

/// Times of the check and of the quick value: before and now of each.
fn compared(archives: &[Archive; 2], mut file: Vec<u8>, trace: i32, rounds: usize) -> [f64; 4] {
    let answers = |archive: &Archive| (archive.check(&file), archive.stack(&file, trace));
    let (check, value) = answers(&archives[0]);
    assert_eq!(answers(&archives[1]), (check, value));
    assert_eq!((check.number, value.number, value.value_length), (0, 0, 1));
    let checked = |archive: usize, file: &[u8]| {
        black_box(archives[archive].check(file));
    };
    let asked = |archive: usize, file: &[u8]| {
        black_box(archives[archive].stack(file, trace));
    };
    let work: [Work<Vec<u8>>; 4] = [
        &|file| checked(0, file),
        &|file| checked(1, file),
        &|file| asked(0, file),
        &|file| asked(1, file),
    ];
    least(&mut file, rounds, work)
}
