//! The stored files, and what they cover.

use std::path::PathBuf;

fn stored(name: &str) -> Vec<u8> {
    let folder = PathBuf::from(env!("CARGO_MANIFEST_DIR")).join("../../crates/cases_calls");
    std::fs::read(folder.join(name)).unwrap()
}

#[test]
fn the_stored_files_are_the_emulations() {
    let cases = cases::cases(cases::SEED);
    assert!(stored("stdin") == cases::input(&cases));
    assert!(stored("stdout") == cases::answers(&cases).into_bytes());
}

#[test]
fn the_lengths_in_the_input_make_up_the_whole() {
    let cases = cases::cases(cases::SEED);
    let input = cases::input(&cases);
    let numbers: Vec<usize> = input
        .chunks_exact(4)
        .map(|bytes| u32::from_le_bytes([bytes[0], bytes[1], bytes[2], bytes[3]]) as usize)
        .collect();
    let mut place = 1;
    for _ in 0..numbers[0] {
        let [cells, characters, space] = [1, 17, 18].map(|field| numbers[place + field]);
        let [most_characters, most_space] = match numbers[place] {
            4 => [cases::REMARK, cases::BUFFER],
            5 => [cases::LINE, 0],
            _ => [cases::LENT, cases::LENT],
        };
        assert!(cells <= cases::CELLS && characters <= most_characters && space <= most_space);
        place += 19 + cells + characters + space;
    }
    assert_eq!((numbers[0], place), (cases.len(), numbers.len()));
}

/// Whether a name of `Coverage::missing` is about loading, large stores or long
/// tapes, which these cases leave out.
fn is_left_out(name: &str) -> bool {
    let about_tapes = [
        "load refused",
        "overlay refused",
        "remark",
        "no remark",
        "tape of",
        "tape: ",
        "write refused 15",
        "write: 15",
        "write: 14 before 15",
        "written tape of",
        "written with 1,000 blocks",
        "written into a buffer of 65,536",
    ];
    let damaged = compare::DAMAGES
        .iter()
        .any(|damage| format!("{damage:?}") == name);
    let about_blocks =
        compare::BLOCK_EVENTS.contains(&name) || compare::LOAD_EVENTS.contains(&name);
    damaged
        || about_blocks
        || name == "largest store"
        || about_tapes.iter().any(|start| name.starts_with(start))
}

#[test]
fn nothing_is_missing() {
    let cases = cases::cases(cases::SEED);
    let mut missing = cases::coverage(&cases).missing();
    missing.retain(|name| !is_left_out(name));
    assert!(missing.is_empty(), "{missing:?}");
}
