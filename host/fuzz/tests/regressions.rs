//! What the fuzzer has kept: each case is alike now and stays so.

use seg2_differential::text::read;
use seg2_differential::Archive;
use std::path::Path;

/// Runs every case of the folder and answers how many there are; a folder that is not
/// there has none.
fn compared_in(folder: &Path) -> usize {
    let Ok(entries) = std::fs::read_dir(folder) else {
        return 0;
    };
    let mut count = 0;
    for entry in entries {
        let path = entry.expect("an entry").path();
        if path.extension().is_none_or(|extension| extension != "case") {
            continue;
        }
        let text = std::fs::read_to_string(&path).expect("text");
        let case = read(&text).unwrap_or_else(|what| panic!("{}: {what}", path.display()));
        if let Err(difference) = case.compare(&Archive) {
            panic!("{}: {difference}", path.display());
        }
        count += 1;
    }
    count
}

#[test]
fn saved_cases() {
    let folder = Path::new(env!("CARGO_MANIFEST_DIR")).join("regressions");
    println!("{} saved cases", compared_in(&folder));
}

#[test]
fn no_folder_is_no_case() {
    assert_eq!(compared_in(Path::new("no/such/folder")), 0);
}
