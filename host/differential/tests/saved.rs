//! Cases as text and back, and shrinking.

use seg2_differential::case::{Base, Kind};
use seg2_differential::draw::{forged, grown, grown_from_image, rng_of, typed, valid, KINDS};
use seg2_differential::shrink::shrunk;
use seg2_differential::spoiled::{Fault, Spoiled};
use seg2_differential::text::{read, written};
use seg2_differential::Forged;
use std::time::Duration;

#[test]
fn text_and_back() {
    for (i, (_, draw)) in KINDS.iter().enumerate() {
        for number in 0..100 {
            let case = draw(&mut rng_of(701 + i as u64, number));
            assert_eq!(read(&written(&case)), Ok(case));
        }
    }
    for bad in [
        "",
        "seed 1\n",
        "seed 1\nkind other\n",
        "seed x\nkind asked\n",
    ] {
        assert!(read(bad).is_err(), "{bad:?}");
    }
    let nothing = "seed 1\nkind asked\nlength 0\nbuffer\n";
    assert!(read(nothing).is_ok());
    let odd = "seed 1\nkind asked\nlength 0\nbuffer 123\n";
    assert!(read(odd).is_err());
    let more = "seed 1\nkind asked\nlength 0\nbuffer 12\nmore\n";
    assert!(read(more).is_err());
}

/// A difference stays while a case gets smaller, and what is not needed for it goes.
#[test]
fn shrinking() {
    let most = Duration::from_secs(20);
    let (function, fault) = ("check", Fault::Place);
    let spoiled = Spoiled { function, fault };
    let case = shrunk(&valid(&mut rng_of(720, 1)), &spoiled, most);
    assert!(case.compare(&spoiled).is_err());
    let Kind::Asked { buffer, .. } = &case.kind else {
        panic!("another kind");
    };
    // Every answer of the check is wrong: nothing of the buffer is needed.
    assert_eq!(buffer.len(), 0);

    let function = "add_bits";
    let spoiled = Spoiled { function, fault };
    let case = (0..100)
        .map(|number| grown(&mut rng_of(721, number)))
        .find(|case| case.compare(&spoiled).is_err())
        .expect("a case with bits");
    let case = shrunk(&case, &spoiled, most);
    assert!(case.compare(&spoiled).is_err());
    let Kind::Grown { steps, .. } = &case.kind else {
        panic!("another kind");
    };
    assert_eq!(steps.len(), 1);
    assert!(steps[0].sheet.is_empty());

    // Another maker's file goes byte by byte, down to none.
    let (function, fault) = ("check", Fault::Number);
    let spoiled = Spoiled { function, fault };
    let case = shrunk(&grown_from_image(&mut rng_of(722, 1)), &spoiled, most);
    let Kind::Grown { base, steps, .. } = &case.kind else {
        panic!("another kind");
    };
    let image = Vec::new();
    assert_eq!((base, steps.len()), (&Base::Image { image }, 0));
}

/// A text goes byte by byte, a number value by value, down to nothing.
#[test]
fn shrinking_numbers() {
    let most = Duration::from_secs(20);
    let fault = Fault::Place;
    let function = "read_number";
    let spoiled = Spoiled { function, fault };
    let case = shrunk(&typed(&mut rng_of(723, 1)), &spoiled, most);
    let text = Vec::new();
    assert_eq!(case.kind, Kind::Typed { text });

    let function = "write_number";
    let spoiled = Spoiled { function, fault };
    for number in 0..20 {
        let case = shrunk(&forged(&mut rng_of(724, number)), &spoiled, most);
        let number = Forged {
            minus: 0,
            coefficient: 0,
            power: 0,
            decimals: 0,
        };
        assert_eq!(case.kind, Kind::Forged { number });
    }
}
