//! Packing and unpacking "undo each other on such grants, and on words with call number 3".

use model::drive::rng::Rng;
use model::{pack, unpack};

#[test]
fn worked_grant() {
    let words = pack(0x2000_0400, 0x2000_0800, 0x10);
    assert_eq!(words, Ok((0x0803_0410, 0x2000_2000)));
    assert_eq!(
        unpack(0x0803_0410, 0x2000_2000),
        (0x2000_0400, 0x2000_0800, 0x10)
    );
}

#[test]
fn only_alignment_and_flags_are_judged() {
    assert_eq!(pack(1, 0, 0), Err(-5));
    assert_eq!(pack(0, 32, 0), Err(-5));
    assert_eq!(pack(0, 0, 64), Err(-5));
    // Empty and inverted grants pack; "only delegation judges empty or inverted".
    assert!(pack(0x40, 0x40, 0).is_ok());
    assert!(pack(0xFFFF_FFC0, 0, 63).is_ok());
}

#[test]
fn each_undoes_the_other() {
    let mut rng = Rng::new(7);
    for _ in 0..100_000 {
        let (nc, p3) = (rng.word() & !0x003F_0000 | 0x0003_0000, rng.word());
        let (lower, upper, flags) = unpack(nc, p3);
        assert_eq!(pack(lower, upper, flags), Ok((nc, p3)));
        let (lower, upper, flags) = (rng.word() & !63, rng.word() & !63, rng.word() & 63);
        let (nc, p3) = pack(lower, upper, flags).unwrap();
        assert_eq!(unpack(nc, p3), (lower, upper, flags));
        // Unpacking ignores the call number.
        assert_eq!(unpack(nc ^ 0x0035_0000, p3), (lower, upper, flags));
    }
}
