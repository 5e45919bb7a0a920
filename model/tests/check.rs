//! Boot passes the check, and one hand-made fault for each clause of "well formed" does not.

mod common;
use common::{booted, halves, nc, Bench};
use model::layout::{put, CLOCK, NOTES, SPARE};
use model::{check, verdict, Fault};

/// A state with an odd table (slot 40, entries 0..2), a child directory (slot 50) hanging in a
/// parent (slot 45), and rights with children of every kind with a range.
fn rich() -> Bench {
    let mut b = booted();
    let made = [
        b.call(nc(1, 0), halves(4, 6), 0x2000_0A00, 3),
        b.call(nc(6 | 3 << 8, 0), halves(4, 7 << 8 | 20), 0x2000_0B40, 0),
        b.call(nc(6 | 2 << 8, 0), halves(4, 8 << 8 | 18), 0x2000_0C80, 0),
        b.call(nc(10, 0), halves(7, 8), 1, 0x3F),
        b.call(nc(8, 0), halves(7, 2), halves(1, 0), halves(0x3F, 5)),
        b.call(0x0803_0410, 9, 4, 0x2000_2000),
        b.call(nc(3, 0), 10, 3, 0x0100_0000),
        b.call(nc(3, 0), 11, 1, 5 << 20 | 1 << 8 | 0xFF),
        b.call(nc(3, 0), halves(6, 0), 5, 0x0F),
        b.call(nc(3, 0), halves(6, 1), halves(6, 0), 0x07),
    ];
    assert_eq!(made, [0; 10]);
    b
}

const WORDS: [(usize, u32, Result<(), Fault>); 62] = [
    // Fields in which every word is sound.
    (CLOCK, 0xFFFF_FFFF, Ok(())),
    (64 * 19, 0xFFFF_FFFF, Ok(())),
    (64 * 19 + 4, 0, Ok(())),
    (SPARE, 1, Err(Fault::Spare)),
    (SPARE + 56, 0x8000_0000, Err(Fault::Spare)),
    // Notes.
    (NOTES + 4 * 19, 0x1_0005, Err(Fault::NotePadding)),
    (NOTES + 4 * 200, 6, Err(Fault::NoteTag)),
    (NOTES + 4 * 19, 0x0105, Err(Fault::NoteArgument)),
    (NOTES + 4 * 200, 0x0100, Err(Fault::NoteArgument)),
    (NOTES + 4 * 200, 0x0001, Err(Fault::NoteTag)),
    (NOTES, 0x0002, Err(Fault::NoteArgument)),
    (NOTES, 0x4102, Err(Fault::NoteArgument)),
    (NOTES, 0x2102, Err(Fault::LaterSlot)),
    (NOTES + 4 * 15, 0x0101, Err(Fault::LaterSlot)),
    (NOTES + 4 * 200, 0x0903, Err(Fault::NoteArgument)),
    (NOTES + 4 * 255, 0x4002, Err(Fault::OutsideMemory)),
    (64 * 200 + 60, 1 << 31, Err(Fault::FreeSlot)),
    // Entries.
    (32 * 31 + 28, 1, Err(Fault::BlankEntry)),
    (64 * 41 + 32, 1, Err(Fault::TablePadding)),
    (32 * 5, 7, Err(Fault::Kind)),
    (32 * 5 + 4, 0x7F, Err(Fault::Flags)),
    (32 * 5 + 4, 0x1F, Err(Fault::RootFlags)),
    (32 * 3 + 4, 1, Err(Fault::Flags)),
    (32 * 5 + 8, 1, Err(Fault::Range)),
    (32 * 3 + 12, 0x1_0000, Err(Fault::Range)),
    (32 * 3 + 12, 0xFFFE, Err(Fault::RootRange)),
    (32 * 4 + 8, 0x2000_0040, Err(Fault::RootRange)),
    (32 * 4 + 12, 0x2000_4040, Err(Fault::Range)),
    (32 * 9 + 8, 0x2000_0420, Err(Fault::Range)),
    (32 * 9 + 8, 0x2000_4000, Err(Fault::Range)),
    // An inverted range of a child is no fault (docs/DECISIONS.md).
    (32 * 9 + 8, 0x2000_0C00, Ok(())),
    (32 * 9 + 4, 0, Ok(())),
    (32 * 11 + 12, 8, Err(Fault::Range)),
    (32 * 5 + 16, 20, Err(Fault::Object)),
    (32 * 5 + 16, 0x100 + 19, Err(Fault::Object)),
    (32 * 4 + 16, 1, Err(Fault::Object)),
    (32 * 5 + 20, 2, Err(Fault::FrozenMark)),
    (32 * 5 + 20, 1, Ok(())),
    (32 * 5 + 24, 1, Err(Fault::Stamp)),
    (32 * 80 + 28, 513, Err(Fault::ParentNumber)),
    (32 * 80 + 28, 84, Err(Fault::ParentNoEntry)),
    (32 * 80 + 28, 33, Err(Fault::ParentNoEntry)),
    (32 * 80 + 28, 32, Err(Fault::ParentKind)),
    (32 * 80 + 28, 1, Err(Fault::ParentKind)),
    (32 * 7 + 28, 2, Err(Fault::ParentObject)),
    (32 * 81 + 4, 0x1F, Err(Fault::ParentFlags)),
    (32 * 11 + 28, 0, Err(Fault::RootRange)),
    (32 * 80 + 28, 0, Err(Fault::RootFlags)),
    (32 * 5 + 28, 6, Err(Fault::NoRoot)),
    (32 * 81 + 28, 82, Err(Fault::Cycle)),
    // Directories.
    (64 * 45, 5, Err(Fault::Geometry)),
    (64 * 16, 30, Err(Fault::Geometry)),
    (64 * 45 + 8, 1 << 22, Err(Fault::Geometry)),
    (64 * 45 + 8, 1 << 23, Ok(())),
    (64 * 45 + 4, 2, Err(Fault::TopMark)),
    (64 * 50 + 4, 1, Err(Fault::ChildTop)),
    (64 * 50, 17, Err(Fault::ChildOrder)),
    (64 * 45 + 12, 1, Err(Fault::DirectoryPadding)),
    (64 * 45 + 32 + 20, 1 << 19, Err(Fault::Frame)),
    (64 * 45 + 32 + 8, 0x4002, Err(Fault::PageFlags)),
    (64 * 45 + 32 + 12, 16, Err(Fault::ChildOrder)),
    (64 * 45 + 32 + 12, 51, Err(Fault::ChildSlot)),
];

#[test]
fn words_set_one_at_a_time() {
    let sound = rich();
    for (at, value, expected) in WORDS {
        let mut s = sound.0.clone();
        put(&mut s[..], at, value);
        assert_eq!(verdict(&s[..]), expected, "word {value:#x} at {at}");
    }
}

#[test]
fn processes_and_the_rest() {
    let sound = rich();
    let cases = [
        (64 * 18, 16, Fault::ProcessTable),
        (64 * 18, 1, Fault::ProcessTable),
        (64 * 18 + 4, 45, Fault::ProcessDirectory),
        (64 * 18 + 4, 0x110, Fault::ProcessDirectory),
        (64 * 18 + 60, 1, Fault::ProcessPadding),
        (64 * 19 + 4, 2, Fault::BootMark),
        (64 * 19 + 8, 1, Fault::EndpointPadding),
        (64 * 45 + 32 + 24, 4, Fault::PositionTag),
        (64 * 45 + 32 + 28, 1, Fault::EmptyPosition),
        (64 * 45 + 32 + 8, 0x0100_0002, Fault::PositionPadding),
    ];
    for (at, value, fault) in cases {
        let mut s = sound.0.clone();
        put(&mut s[..], at, value);
        assert_eq!(verdict(&s[..]), Err(fault), "word {value:#x} at {at}");
    }
}

#[test]
fn second_root() {
    let mut b = rich();
    let root = b.entry(5);
    root.write(&mut b.0, 12);
    assert_eq!(verdict(&b.0[..]), Err(Fault::SecondRoot));
}

#[test]
fn boot_and_lengths() {
    let b = booted();
    assert!(check(&b.0[..]));
    assert!(!check(&b.0[1..]));
    assert!(!check(&[]));
    assert!(!check(&vec![0; model::SIZE]));
    let mut long = b.0.to_vec();
    long.push(0);
    assert!(!check(&long));
    let before = long.clone();
    assert_eq!(model::boot(&mut long), -19);
    assert_eq!(model::tick(&mut long), -19);
    assert_eq!(model::call(&mut long, 18, 0x0014_0003, 0, 0, 0), -19);
    assert_eq!(long, before);
}
