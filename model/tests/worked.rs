//! The worked cases of document 01 ("Worked from boot, caller 18").

mod common;
use common::{booted, halves, nc, CALLER};
use model::kinds;

#[test]
fn function_and_numbers() {
    let mut b = booted();
    assert_eq!(b.call(0x0014_0003, 0, 0, 0), 0);
    assert_eq!(b.call(nc(21, 3), 0, 0, 0), -17);
    assert_eq!(b.call(nc(0, 3), 0, 0, 0), -17);
    assert_eq!(b.call_by(17, 0x0014_0003, 0, 0, 0), -18);
}

#[test]
fn endpoint_made_once() {
    let mut b = booted();
    assert_eq!(b.call(0x0010_0000, 4, 6, 0x2000_0500), 0);
    assert_eq!(b.call(0x0010_0000, 4, 6, 0x2000_0500), -6);
    assert_eq!(b.call(0x0010_0000, 4, 7, 0x2000_0500), -7);
}

#[test]
fn addresses() {
    for (address, answer) in [(0x2000_0501, -5), (0x2000_3FC0, 0), (0x2000_4000, -5)] {
        assert_eq!(booted().call(0x0010_0000, 4, 6, address), answer);
    }
}

#[test]
fn grant_of_memory() {
    for (address, answer) in [(0x2000_07C0, 0), (0x2000_0800, -5)] {
        let mut b = booted();
        assert_eq!(b.call(0x0803_0410, 6, 4, 0x2000_2000), 0);
        let e = b.entry(6);
        assert_eq!((e.kind, e.flags), (kinds::MEMORY, kinds::memory::SIG));
        assert_eq!((e.low, e.high), (0x2000_0400, 0x2000_0800));
        assert_eq!((e.object, e.frozen, e.stamp, e.parent), (0, 0, 0, 5));
        assert_eq!(b.call(0x0010_0000, 6, 7, address), answer);
    }
    assert_eq!(booted().call(0x0403_0410, 6, 4, 0x2000_2000), -5);
}

#[test]
fn two_steps() {
    let mut one = booted();
    let mut two = booted();
    assert_eq!(one.call(0x0010_0000, 4, 6, 0x2000_0500), 0);
    assert_eq!(two.call(0x0010_0000, 0x0084, 6, 0x2000_0500), 0);
    assert!(one.0 == two.0);
    assert_eq!(booted().call(0x0010_0000, 0x0100, 6, 0x2000_0500), -1);
}

#[test]
fn frozen_for_eight_ticks() {
    let mut b = booted();
    // A table at place 6 with a child at place 7, so that REFCNT follows QUIE.
    assert_eq!(b.call(nc(1, 0), halves(4, 6), 0x2000_0800, 4), 0);
    assert_eq!(b.call(nc(3, 0), 7, 6, 0xFF), 0);
    b.ticks(3);
    assert_eq!(b.call(nc(4, 0), 6, 0, 0), 0);
    b.ticks(7);
    assert_eq!(b.call(nc(2, 0), 6, 0, 0), -8);
    b.ticks(1);
    assert_eq!(b.call(nc(2, 0), 6, 0, 0), -9);
}

#[test]
fn frozen_across_the_clocks_wrap() {
    let mut b = booted();
    assert_eq!(b.call(nc(1, 0), halves(4, 6), 0x2000_0800, 4), 0);
    b.set(model::layout::CLOCK, u32::MAX - 2);
    assert_eq!(b.call(nc(4, 0), 6, 0, 0), 0);
    b.ticks(7);
    assert_eq!(b.clock(), 4);
    assert_eq!(b.call(nc(2, 0), 6, 0, 0), -8);
    b.ticks(1);
    assert_eq!(b.call(nc(2, 0), 6, 0, 0), 0);
}

#[test]
fn a_full_count() {
    let mut b = booted();
    let count = 64 * 19;
    b.set(count, u32::MAX);
    assert_eq!(b.call(nc(18, 0), 5, 0, 0), -14);
    assert_eq!(b.call(nc(19, 0), 5, 3, 0), 2_147_483_647);
    assert_eq!(b.word(count), 2_147_483_648);
    assert_eq!(b.call(nc(19, 0), 5, 2, 0), 1);
    assert_eq!(b.word(count), 2_147_483_647);
    assert_eq!(b.call(nc(19, 0), 5, 3, 0), 2_147_483_647);
    assert_eq!(b.call(nc(19, 0), 5, 3, 0), 0);
    assert_eq!(b.call(nc(18, 0), 5, 0, 0), 0);
    assert_eq!(b.word(count), 1);
}

#[test]
fn function_zero_answers_the_clock_mod_2_31() {
    let mut b = booted();
    b.set(model::layout::CLOCK, 0x8000_0005);
    assert_eq!(b.call(nc(20, 3), 0, 0, 0), 5);
    assert_eq!(b.call(nc(20, 3), 1, 0, 0), -4);
    assert_eq!(b.call(nc(20, 3), 0xABCD_0000, 0, 0), 5);
}

#[test]
fn own_process_deleted() {
    let mut b = booted();
    assert_eq!(b.call(nc(4, 0), 2, 0, 0), 0);
    b.ticks(8);
    assert_eq!(b.call(nc(13, 0), 2, 0, 0), 0);
    assert_eq!(b.call_by(CALLER, nc(20, 3), 0, 0, 0), -18);
}
