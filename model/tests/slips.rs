//! "Slips that look right", each with a case that tells it from the rule.

mod common;
use common::{booted, halves, nc};

const SLOT_40: u32 = 0x2000_0A00;
const SLOT_60: u32 = 0x2000_0F00;

/// "The upper address taken as included."
#[test]
fn upper_address_excluded() {
    let mut b = booted();
    let (w0, w3) = model::pack(0x2000_0400, 0x2000_0800, 0x3F).unwrap();
    assert_eq!(b.call(w0, 6, 4, w3), 0);
    // The last slot is in, the one after it is out, and an object across the end is out.
    assert_eq!(b.call(nc(16, 0), 6, 7, 0x2000_0800), -5);
    assert_eq!(b.call(nc(1, 0), halves(6, 7), 0x2000_07C0, 3), -5);
    assert_eq!(b.call(nc(1, 0), halves(6, 7), 0x2000_07C0, 2), 0);
    // A grant whose ends meet is empty.
    let (w0, w3) = model::pack(0x2000_0400, 0x2000_0400, 0x3F).unwrap();
    assert_eq!(b.call(w0, 8, 4, w3), -5);
}

/// "Children counted in one table only."
#[test]
fn children_in_another_table() {
    let mut b = booted();
    assert_eq!(b.call(nc(1, 0), halves(4, 6), SLOT_40, 4), 0);
    assert_eq!(b.call(nc(16, 0), 4, 7, SLOT_60), 0);
    // The endpoint's only child stands in the new table.
    assert_eq!(b.call(nc(3, 0), halves(6, 2), 7, 1), 0);
    assert_eq!(b.call(nc(4, 0), 7, 0, 0), 0);
    b.ticks(8);
    assert_eq!(b.call(nc(17, 0), 7, 0, 0), -9);
    assert_eq!(b.call(nc(4, 6), 2, 0, 0), 0);
    b.ticks(8);
    assert_eq!(b.call(nc(5, 6), 2, 0, 0), 0);
    assert_eq!(b.call(nc(17, 0), 7, 0, 0), 0);
}

/// "A directory deleted while it hangs under another."
#[test]
fn directory_hanging_or_hung_in() {
    let mut b = booted();
    // Parent: size order 20, number order 2; child: size order 18, number order 2. Neither top.
    assert_eq!(
        b.call(nc(6 | 2 << 8, 0), halves(4, 6 << 8 | 20), SLOT_40, 0),
        0
    );
    assert_eq!(
        b.call(nc(6 | 2 << 8, 0), halves(4, 7 << 8 | 18), SLOT_60, 0),
        0
    );
    assert_eq!(b.call(nc(10, 0), halves(6, 7), 1, 0xFFFF_FFFF), 0);
    assert_eq!(b.call(nc(4, 0), 7, 0, 0), 0);
    b.ticks(8);
    assert_eq!(b.call(nc(7, 0), 7, 0, 0), -10);
    assert_eq!(b.call(nc(11, 0), 6, 1, 0), 0);
    assert_eq!(b.call(nc(7, 0), 7, 0, 0), 0);
}

/// "Middle tables of two-step numbers read without the frozen test."
#[test]
fn frozen_middle_table() {
    let mut b = booted();
    assert_eq!(b.call(nc(3, 0), 6, 0, 0xFF), 0);
    assert_eq!(b.call(nc(20, 0x0683), 0, 0, 0), 0);
    assert_eq!(b.call(nc(4, 0), 6, 0, 0), 0);
    assert_eq!(b.call(nc(20, 0x0683), 0, 0, 0), -2);
    // The middle is done with before the second step's range, and a blank middle is −3.
    assert_eq!(b.call(nc(20, 0x06FF), 0, 0, 0), -2);
    assert_eq!(b.call(nc(20, 0x0783), 0, 0, 0), -3);
    assert_eq!(b.call(nc(20, 0x00FF), 0, 0, 0), -1);
}

/// "KOTBL answered for a range fault."
#[test]
fn range_fault_before_occupied() {
    let mut b = booted();
    let (w0, w3) = model::pack(0x2000_0800, 0x2000_0C00, 0x3F).unwrap();
    assert_eq!(b.call(w0, 6, 4, w3), 0);
    // Slot 0 is occupied, but it is outside the right.
    assert_eq!(b.call(nc(16, 0), 6, 7, 0x2000_0000), -5);
    // Across the end of kernel memory, beginning in an occupied slot.
    assert_eq!(b.call(nc(16, 0), 4, 7, 0x2000_3FC0), 0);
    assert_eq!(b.call(nc(1, 0), halves(4, 8), 0x2000_3FC0, 3), -5);
    assert_eq!(b.call(nc(1, 0), halves(4, 8), 0x2000_3FC0, 2), -7);
    // An address whose end passes 2^32.
    assert_eq!(b.call(nc(1, 0), halves(4, 8), 0xFFFF_FFC0, 64), -5);
}

/// Whole words are read where the call table says P1, P2, P3 without a half.
#[test]
fn whole_words() {
    let mut b = booted();
    assert_eq!(b.call(nc(18, 0), 0x1_0005, 0, 0), -1);
    assert_eq!(b.call(nc(4, 0), 0x1_0005, 0, 0), -1);
    assert_eq!(b.call(nc(9, 0), 1, 0x1_0001, 0), -11);
    assert_eq!(b.call(nc(19, 0), 5, 0x1_0002, 0), -15);
    assert_eq!(b.call(nc(1, 0), halves(4, 6), SLOT_40, 0x1_0001), -1);
}

/// The parent may be a child itself, and its place is kept as the parent.
#[test]
fn a_child_delegates_on() {
    let mut b = booted();
    assert_eq!(b.call(nc(3, 0), 6, 5, 0b1001), 0);
    assert_eq!(b.call(nc(3, 0), 7, 6, 0b1000), 0);
    assert_eq!(b.entry(7).parent, 7);
    assert_eq!(b.call(nc(3, 0), 8, 6, 0b10000), -5);
    assert_eq!(b.call(nc(3, 0), 8, 6, 0), -5);
    assert_eq!(b.call(nc(3, 0), 8, 5, 0x40), -5);
}
