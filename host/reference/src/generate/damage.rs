//! Damages: one broken rule in one named way, and the refusal it must give.
//!
//! A damage changes only bytes that are first judged by the row it is made for
//! (or read before without effect), so everything before that row still passes.

use super::lay::Laid;
use super::model::Model;
use super::rng::Rng;
use super::ways::WAYS;
use crate::refusal::Refusal;

/// A damaged file and the refusal it must give.
#[derive(Clone, Debug)]
pub struct Damaged {
    pub name: &'static str,
    pub buffer: Vec<u8>,
    pub length: usize,
    pub expected: Refusal,
}

/// A way to break the rule of one row.
pub struct Way {
    /// The row.
    pub number: u8,
    pub name: &'static str,
    pub scope: Scope,
    /// Whether the lenient reading takes what it does (document 02, §11).
    pub forgiven: bool,
    how: How,
}

/// Which check meets a damage with the refusal it is made for.
#[derive(Clone, Copy, Debug, PartialEq, Eq)]
pub enum Scope {
    /// Both.
    Both,
    /// The reader's only: N=0.
    Reading,
    /// The addition's only: an image with N=0 that no file can be like.
    Image,
}

/// `None` where a file does not have what is to be damaged.
enum How {
    /// Bytes of a laid file are changed.
    Bytes(fn(&mut Rng, &Laid) -> Option<Change>),
    /// The length beside the buffer is changed, or bytes that earlier rows also read.
    Alone(fn(&mut Rng, &Laid) -> Option<Change>),
    /// The model is changed before it is laid.
    Shape(fn(&mut Rng, &mut Model) -> Option<Spot>),
}

/// Changes to a laid file, with part and place of the refusal.
pub(super) struct Change {
    pub bytes: Vec<(usize, u8)>,
    pub length: Option<usize>,
    pub part: i64,
    pub place: usize,
}

/// Where a changed model must be refused.
pub(super) enum Spot {
    /// The offset of a part's i-th string.
    String(i64, usize),
    /// The end of a part's area.
    AreaEnd(i64),
    /// The last byte of a part's area.
    AreaLastByte(i64),
    /// The first byte of a part's area: p+32 of a trace.
    AreaStart(i64),
}

/// A file damaged in the given way; an image with N=0 where only that can be.
pub fn damaged(rng: &mut Rng, way: &Way) -> Damaged {
    loop {
        let model = match way.scope {
            Scope::Image => Model::image(rng),
            Scope::Both | Scope::Reading => Model::random(rng),
        };
        if let Some(found) = damaged_in(rng, way, model) {
            return found;
        }
    }
}

/// An image with N=0 damaged in some way, for the check of an addition.
pub fn damaged_image(rng: &mut Rng) -> Damaged {
    loop {
        let way = &WAYS[rng.between(0, WAYS.len() - 1)];
        let model = Model::image(rng);
        if let Some(found) = damaged_in(rng, way, model) {
            return found;
        }
    }
}

/// The given file or image damaged in the given way, if it has what that takes.
fn damaged_in(rng: &mut Rng, way: &Way, mut model: Model) -> Option<Damaged> {
    let (laid, expected) = damaged_laid(rng, way, &mut model)?;
    Some(Damaged {
        name: way.name,
        buffer: laid.buffer,
        length: laid.length,
        expected,
    })
}

/// The same with the layout, which tells where everything would stand without the damage; the
/// model is the one that was laid.
pub(super) fn damaged_laid(rng: &mut Rng, way: &Way, model: &mut Model) -> Option<(Laid, Refusal)> {
    let (laid, part, place) = match way.how {
        How::Bytes(change) | How::Alone(change) => {
            let mut laid = model.lay();
            let change = change(rng, &laid)?;
            change.apply(&mut laid);
            (laid, change.part, change.place)
        }
        How::Shape(change) => {
            let spot = change(rng, model)?;
            let laid = model.lay();
            let (part, place) = spot.find(&laid);
            (laid, part, place)
        }
    };
    Some((laid, Refusal::new(way.number, part, place)))
}

/// Two or three damages in one file: the one that is checked first decides.
pub fn several_damages(rng: &mut Rng) -> Damaged {
    loop {
        let laid = Model::random(rng).lay();
        let mut broken = laid.clone();
        let mut taken: Vec<usize> = Vec::new();
        let mut refusals = Vec::new();
        for _ in 0..rng.between(2, 3) {
            let way = &WAYS[rng.between(0, WAYS.len() - 1)];
            let How::Bytes(change) = way.how else {
                continue;
            };
            let Some(change) = change(rng, &laid) else {
                continue;
            };
            // Two halves of a terminator side by side would be a whole one.
            let beside_taken = |(at, _): &(usize, u8)| taken.iter().any(|t| t.abs_diff(*at) <= 1);
            if change.bytes.iter().any(beside_taken) {
                continue;
            }
            taken.extend(change.bytes.iter().map(|(at, _)| at));
            change.apply(&mut broken);
            refusals.push(Refusal::new(way.number, change.part, change.place));
        }
        if refusals.len() < 2 {
            continue;
        }
        refusals.sort_by_key(turn);
        return Damaged {
            name: "several damages",
            buffer: broken.buffer,
            length: broken.length,
            expected: refusals[0],
        };
    }
}

/// When a refusal's row has its turn: "1 to 7 first, then the first pointer, then
/// the file's strings, then each trace 8 to 17. Strings are taken one by one, 14
/// to 17 each"; 34 "after 17 within each trace".
pub(super) fn turn(refusal: &Refusal) -> (i64, u64, u8) {
    let Refusal {
        number,
        part,
        place,
    } = *refusal;
    match number {
        1..=7 => (-3, u64::from(number), place as u8),
        8 if part == 0 => (-2, 0, 8),
        8..=13 => (part, 0, number),
        34 => (part, u64::MAX, number),
        _ => (part, place, number),
    }
}

impl Way {
    const fn new(number: u8, name: &'static str, how: How) -> Way {
        let scope = Scope::Both;
        Way {
            number,
            name,
            scope,
            // "17 and 34 are never given here"
            forgiven: matches!(number, 17 | 34),
            how,
        }
    }

    /// One of the three points in which 14 and 16 are not as in document 01.
    pub(super) const fn forgiven(self) -> Way {
        Way {
            forgiven: true,
            ..self
        }
    }

    pub(super) const fn only(self, scope: Scope) -> Way {
        Way { scope, ..self }
    }
}

impl Change {
    fn apply(&self, laid: &mut Laid) {
        for &(at, byte) in &self.bytes {
            laid.buffer[at] = byte;
        }
        laid.length = self.length.unwrap_or(laid.length);
    }
}

impl Spot {
    fn find(&self, laid: &Laid) -> (i64, usize) {
        match *self {
            Spot::String(part, i) => (part, laid.strings(part)[i].keyword.start - 2),
            Spot::AreaEnd(part) => (part, laid.area(part).end),
            Spot::AreaLastByte(part) => (part, laid.area(part).end - 1),
            Spot::AreaStart(part) => (part, laid.area(part).start),
        }
    }
}

pub(super) const fn bytes(
    number: u8,
    name: &'static str,
    change: fn(&mut Rng, &Laid) -> Option<Change>,
) -> Way {
    Way::new(number, name, How::Bytes(change))
}

pub(super) const fn alone(
    number: u8,
    name: &'static str,
    change: fn(&mut Rng, &Laid) -> Option<Change>,
) -> Way {
    Way::new(number, name, How::Alone(change))
}

pub(super) const fn shape(
    number: u8,
    name: &'static str,
    change: fn(&mut Rng, &mut Model) -> Option<Spot>,
) -> Way {
    Way::new(number, name, How::Shape(change))
}
