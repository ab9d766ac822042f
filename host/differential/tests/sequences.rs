//! Files that grow, refused additions in between: after each call the file of the list
//! so far, byte for byte, and everything before read back.

use seg2_differential::{all_alike, draw};

#[test]
fn from_a_start() {
    let tally = all_alike(401, 4_000, draw::grown);
    for number in [0, 24, 25, 26, 27, 28, 29, 30, 35] {
        assert!(tally.met[number] > 20, "{number}: {:?}", tally.met);
    }
    // Sheets without a channel number where the file's traces have one, and so on.
    assert!(tally.met[35] > 1_000, "{:?}", tally.met);
}

/// Gaps between traces, bytes after the last, other terminators, high byte first, images
/// without traces of any length, and files whose channel numbers break the rule.
#[test]
fn from_another_makers_file() {
    let tally = all_alike(402, 4_000, draw::grown_from_image);
    for number in [0, 24, 25, 26, 27, 28, 29, 30, 34, 35] {
        assert!(tally.met[number] > 20, "{number}: {:?}", tally.met);
    }
}
