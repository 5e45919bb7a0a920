//! Damages of table entries, field by field.

use super::pick::{any_blank, any_place, any_right, bit, byte, change, change_at, change_child};
use super::{Damage, Level};
use crate::drive::look::firsts;
use crate::drive::rng::Rng;
use crate::entry::Entry;
use crate::kinds::{self, all_flags};
use crate::layout::{argument, memory_of, tag, BASE, END};

pub const AIMED: [Damage; 19] = [
    Damage("entry: a bit", Level::Bit, |s, r| {
        let at = 32 * any_right(s, r)?;
        bit(s, r, at, at + 32)
    }),
    Damage("entry: a byte of a blank one", Level::Byte, |s, r| {
        let at = 32 * any_blank(s, r)?;
        byte(s, r, at, at + 32)
    }),
    Damage("entry: after an odd table's last", Level::Bit, |s, r| {
        let odd = firsts(s, tag::TABLE)
            .into_iter()
            .filter(|&t| argument(s, t) % 2 == 1)
            .collect();
        let table = super::pick::one_of(r, odd)?;
        let at = memory_of(table) + 32 * argument(s, table) as usize;
        bit(s, r, at, at + 32)
    }),
    Damage("entry: kind", Level::Word, |s, r| {
        change(s, r, |e, r| e.kind = r.within(0, 8))
    }),
    Damage("entry: kind with junk above", Level::Bit, |s, r| {
        change(s, r, |e, r| e.kind |= 1 << r.within(3, 31))
    }),
    Damage("entry: of no kind, all else zero", Level::Word, |s, r| {
        let place = any_blank(s, r)?;
        let kind = r.pick(&[7, 8, 9, 256, 1 << 31]);
        change_at(s, r, place, |e, _| e.kind = kind)
    }),
    Damage("entry: a flag bit", Level::Bit, |s, r| {
        change(s, r, |e, r| e.flags ^= 1 << r.below(9))
    }),
    Damage("entry: low end", Level::Word, |s, r| {
        change(s, r, |e, r| e.low = an_end(e, r))
    }),
    Damage("entry: high end", Level::Word, |s, r| {
        change(s, r, |e, r| e.high = an_end(e, r))
    }),
    Damage("entry: both ends", Level::Many, |s, r| {
        change(s, r, |e, r| (e.low, e.high) = (an_end(e, r), an_end(e, r)))
    }),
    Damage("entry: object", Level::Word, |s, r| {
        change(s, r, |e, r| {
            e.object = match r.below(4) {
                0 => r.within(0, 256),
                1 => e.object + 1,
                2 => e.object | 256,
                _ => r.word(),
            }
        })
    }),
    Damage("entry: another's object, parent", Level::Many, |s, r| {
        let other = Entry::read(s, any_right(s, r)?);
        change(s, r, |e, _| {
            (e.object, e.parent) = (other.object, other.parent)
        })
    }),
    Damage("entry: frozen mark", Level::Word, |s, r| {
        change(s, r, |e, r| e.frozen = r.pick(&[0, 1, 1, 2, 256]))
    }),
    Damage("entry: stamp", Level::Word, |s, r| {
        change(s, r, |e, r| {
            e.stamp = match r.below(3) {
                0 => 0,
                1 => 1,
                _ => r.word(),
            }
        })
    }),
    Damage("entry: frozen with a stamp", Level::Many, |s, r| {
        change(s, r, |e, r| (e.frozen, e.stamp) = (1, r.word()))
    }),
    Damage("child: flags widened", Level::Word, |s, r| {
        change_child(s, r, |e, r| {
            let lacking = all_flags(e.kind) & !e.flags;
            e.flags |= lacking & r.word()
        })
    }),
    Damage("child: flags narrowed", Level::Word, |s, r| {
        change_child(s, r, |e, r| match r.chance(30) {
            true => e.flags = 0,
            false => e.flags &= r.word(),
        })
    }),
    Damage("child: an end by one step", Level::Word, |s, r| {
        change_child(s, r, |e, r| {
            let step = if e.kind == kinds::MEMORY { 64 } else { 1 };
            match r.below(4) {
                0 => e.low = e.low.wrapping_sub(step),
                1 => e.low = e.low.wrapping_add(step),
                2 => e.high = e.high.wrapping_sub(step),
                _ => e.high = e.high.wrapping_add(step),
            }
        })
    }),
    Damage("child: range inverted or empty", Level::Many, |s, r| {
        let ranged = [kinds::DIRECTORY, kinds::MEMORY, kinds::FUNCTION];
        let place = any_place(s, r, |e| !e.is_root() && ranged.contains(&e.kind))?;
        change_at(s, r, place, |e, r| match r.below(4) {
            0 => (e.low, e.high) = (e.high, e.low),
            1 => e.high = e.low,
            // Empty or inverted, and perhaps outside the parent's range.
            _ => {
                let (one, two) = (an_end(e, r), an_end(e, r));
                (e.low, e.high) = (one.max(two), one.min(two));
            }
        })
    }),
];

/// An end of a range: of the kind's sort, or just out of it.
fn an_end(e: &Entry, r: &mut Rng) -> u32 {
    match (e.kind, r.below(8)) {
        (_, 0) => e.low,
        (_, 1) => e.high,
        (kinds::MEMORY, 2) => r.pick(&[BASE, END]),
        (kinds::MEMORY, 3) => r.pick(&[BASE - 64, END + 64, 0, u32::MAX]),
        (kinds::MEMORY, 4) => BASE + r.within(0, 0x4000),
        (kinds::MEMORY, _) => BASE + 64 * r.within(0, 256),
        (kinds::FUNCTION, 2) => r.pick(&[0, 0xFFFF, 0x1_0000, u32::MAX]),
        (kinds::FUNCTION, _) => r.within(0, 0xFFFF),
        (kinds::DIRECTORY, 2) => r.within(0, 256),
        (kinds::DIRECTORY, _) => r.within(0, 8),
        _ => r.pick(&[0, 1, u32::MAX]),
    }
}
