//! Generated numbers and locations: each is read as what it was made of.

use seg2_reference::generate::*;
use seg2_reference::*;
use std::collections::{BTreeMap, BTreeSet};

#[test]
fn numbers_and_doubles() {
    let mut rng = Rng::new(21);
    let mut met = BTreeMap::new();
    for _ in 0..20_000 {
        let case = number_case(&mut rng);
        let text = String::from_utf8_lossy(&case.text).into_owned();
        assert_eq!(number(&case.text), case.number, "{text}");
        let found = double(&case.text).map(f64::to_bits);
        assert_eq!(found, case.double.map(f64::to_bits), "{text}");
        *met.entry(case.row()).or_insert(0) += 1;
    }
    assert!(met.keys().eq(&[0, 20, 21, 22]), "{met:?}");
    assert!(met.values().all(|&times| times > 1000), "{met:?}");
}

#[test]
fn locations() {
    let mut rng = Rng::new(22);
    let mut met = BTreeSet::new();
    for _ in 0..10_000 {
        let case = location_case(&mut rng);
        let text = String::from_utf8_lossy(&case.text).into_owned();
        let bits = |l: Location| ([l.x, l.y, l.z].map(f64::to_bits), l.count, l.decimals);
        let found = location(&case.text).map(bits);
        assert_eq!(found, case.expected.map(bits), "{text}");
        met.insert(case.kind());
    }
    let kinds = [Ok(1), Ok(3), Err(20), Err(21), Err(22), Err(23)];
    assert_eq!(met, kinds.into());
}
