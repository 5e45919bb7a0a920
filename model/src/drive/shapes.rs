//! The words of one generated call, by call number.

use super::arguments::Arguments;
use super::look;
use crate::entry::Entry;
use crate::grant;
use crate::kinds::{self, directory, endpoint, memory, process, table};
use crate::layout::{clock, directory_slots, holds, table_slots, tag};
use crate::objects::{has_children, is_top, number_order, size_order};

/// D1:D0.
fn halves(d1: u32, d0: u32) -> u32 {
    d1 << 16 | d0 & 0xFFFF
}

impl Arguments<'_> {
    /// N:C, with chance bits where the call names none.
    fn nc(&mut self, number: u32, c: u32) -> u32 {
        let unread = if self.rng.chance(25) {
            self.rng.word()
        } else {
            0
        };
        halves(number | unread << 6, c)
    }

    /// A word that the call does not read.
    fn unread(&mut self) -> u32 {
        if self.rng.chance(25) {
            self.rng.word()
        } else {
            0
        }
    }

    /// A number where the whole word counts: a faulty one may have a high half.
    fn whole(&mut self, number: u32) -> u32 {
        if self.slips() && self.rng.chance(15) {
            number | 1 << self.rng.within(15, 31)
        } else {
            number
        }
    }

    /// The words of a call.
    pub fn words(&mut self, number: u32) -> [u32; 4] {
        match number {
            1 => self.create_table(),
            2 => self.delete(number, kinds::TABLE),
            3 => self.delegate(),
            4 => self.freeze(),
            5 => self.remove(),
            6 => self.create_directory(),
            7 => self.delete(number, kinds::DIRECTORY),
            8 => self.map(),
            9 => self.clear(number, directory::REM, holds::PAGE),
            10 => self.construct(),
            11 => self.clear(number, directory::DES, holds::CHILD),
            12 => self.create_process(),
            13 => self.delete(number, kinds::PROCESS),
            14 => self.change_table(),
            15 => self.change_directory(),
            16 => self.create_endpoint(),
            17 => self.delete(number, kinds::ENDPOINT),
            18 => self.send(),
            19 => self.receive(),
            20 => self.function(),
            _ => [
                halves(number, self.rng.word()),
                self.rng.word(),
                self.rng.word(),
                self.rng.word(),
            ],
        }
    }

    fn create_table(&mut self) -> [u32; 4] {
        let c = self.number(kinds::TABLE, table::CRT);
        let mem = self.number(kinds::MEMORY, memory::CAPTBL);
        let place = self.place_to_fill(self.table_under(c));
        let entries = match self.slips() {
            false if self.rng.chance(85) => self.rng.within(1, 12),
            false => self.rng.within(1, 64),
            true => self.rng.pick(&[0, 64, 65, 0x1_0001, u32::MAX]),
        };
        let right = self.right_under(mem, kinds::MEMORY);
        let address = self.address(&right, table_slots(entries.clamp(1, 64) as usize));
        [self.nc(1, c), halves(mem, place), address, entries]
    }

    /// Calls 2, 7, 13, 17: ripe roots most often, then frozen rights, then any.
    fn delete(&mut self, number: u32, kind: u32) -> [u32; 4] {
        let c = self.number(kinds::TABLE, table::DEL);
        let holder = self.table_under(c);
        let s = self.s;
        let aged = move |e: &Entry| e.is_frozen() && clock(s).wrapping_sub(e.stamp) >= 8;
        let place = match self.rng.below(10) {
            0..=6 => self.place_where(holder, move |place, e| {
                e.kind == kind && aged(e) && e.is_root() && !has_children(s, place)
            }),
            7 => self.place_where(holder, |_, e| e.kind == kind && e.is_frozen()),
            8 => self.place_where(holder, |_, e| e.is_frozen()),
            _ => self.place_where(holder, |_, e| e.kind == kind),
        };
        let p1 = self.whole(place);
        [self.nc(number, c), p1, self.unread(), self.unread()]
    }

    fn delegate(&mut self) -> [u32; 4] {
        let into = self.number(kinds::TABLE, table::ADD_DST);
        let from = self.number(kinds::TABLE, table::ADD_SRC);
        let to = self.place_to_fill(self.table_under(into));
        let source_table = self.table_under(from);
        // Half of the time a kind is chosen first, so that the many do not crowd out the few.
        let kind = self.rng.within(kinds::TABLE, kinds::FUNCTION);
        let any = self.rng.chance(50);
        let source = self.place_where(source_table, move |_, e| {
            !e.is_blank() && !e.is_frozen() && (any || e.kind == kind)
        });
        let right = look::entry_at(self.s, source_table, source).unwrap_or_default();
        let flags = self.flags(right.flags);
        let (w0, p3) = match right.kind {
            kinds::MEMORY => {
                let (low, high) = self.range(right.low, right.high, 64);
                grant::pack(low & !63, high & !63, flags & 63).unwrap_or((3, 0))
            }
            kinds::DIRECTORY => {
                let (low, high) = self.range(right.low, right.high, 1);
                let p3 = high << 20 | (low & 0xFFF) << 8 | flags & 0xFF;
                (self.nc(3, 0) | self.unread() & 0xFFFF, p3)
            }
            kinds::FUNCTION => {
                let (low, high) = match self.rng.below(3) {
                    0 => self.range(right.low, right.high.min(right.low.saturating_add(3)), 1),
                    _ => self.range(right.low, right.high, 1),
                };
                (self.nc(3, 0), halves(high, low))
            }
            _ => (self.nc(3, 0) | self.unread() & 0xFFFF, flags),
        };
        [w0, halves(into, to), halves(from, source), p3]
    }

    /// The boot roots are mostly spared, since without them little can be done.
    fn freeze(&mut self) -> [u32; 4] {
        let c = self.number(kinds::TABLE, table::FRZ);
        let holder = self.table_under(c);
        let spare = self.rng.chance(95);
        let place = self.place_where(holder, move |place, e| {
            !(e.is_blank() || e.is_frozen() || spare && place < 6)
        });
        let p1 = self.whole(place);
        [self.nc(4, c), p1, self.unread(), self.unread()]
    }

    fn remove(&mut self) -> [u32; 4] {
        let c = self.number(kinds::TABLE, table::REM);
        let holder = self.table_under(c);
        let s = self.s;
        let place = match self.rng.below(8) {
            0..=4 => self.place_where(holder, move |place, e| {
                e.is_frozen() && !e.is_root() && !has_children(s, place)
            }),
            5 | 6 => self.place_where(holder, |_, e| e.is_frozen()),
            _ => self.place_where(holder, |_, e| !e.is_blank()),
        };
        let p1 = self.whole(place);
        [self.nc(5, c), p1, self.unread(), self.unread()]
    }

    fn create_directory(&mut self) -> [u32; 4] {
        let c = self.number(kinds::TABLE, table::CRT);
        let mem = self.number(kinds::MEMORY, memory::PGTBL);
        let place = self.place_to_fill(self.table_under(c));
        let mut number = match self.rng.chance(90) {
            true => self.rng.within(1, 4),
            false => self.rng.within(1, 8),
        };
        let mut size = self.rng.within(6, 32 - number);
        // Most can hang in some directory that stands, or have it hang in them.
        let standing = look::firsts(self.s, tag::DIRECTORY);
        if !standing.is_empty() && self.rng.chance(75) {
            let other = self.rng.pick(&standing);
            let order = size_order(self.s, other);
            let fitting = match self.rng.chance(70) {
                true => order.saturating_sub(number),
                false => order + number_order(self.s, other),
            };
            if (6..=32 - number).contains(&fitting) {
                size = fitting;
            }
        }
        let mut start = match 32 - size - number {
            0 => 0,
            free => (self.rng.word() & ((1 << free) - 1)) << (size + number),
        };
        if self.slips() {
            match self.rng.below(5) {
                0 => size = self.rng.within(0, 255),
                1 => number = self.rng.pick(&[0, 9, 255, 8, number | 0x10, number | 0x80]),
                2 => start |= 1 << self.rng.within(1, 31),
                3 => (size, number) = (31, 2),
                _ => size = self.rng.pick(&[5, 32, size | 0x20, size | 0x80]),
            }
        }
        let top = self.rng.chance(40) as u32;
        let right = self.right_under(mem, kinds::MEMORY);
        let address = self.address(&right, directory_slots(number.clamp(1, 8)));
        let n = number << 8 | (self.unread() & 3) << 6 | 6;
        let p1 = halves(mem, (place & 0xFF) << 8 | size & 0xFF);
        [halves(n, c), p1, address, start | top]
    }

    fn map(&mut self) -> [u32; 4] {
        let s = self.s;
        let source = self.number(kinds::DIRECTORY, directory::ADD_SRC);
        let from = self.right_under(source, kinds::DIRECTORY);
        let from_order = size_order(s, from.object as usize);
        let target = self.number_where(kinds::DIRECTORY, directory::ADD_DST, move |e| {
            size_order(s, e.object as usize) <= from_order
        });
        let to = self.right_under(target, kinds::DIRECTORY);
        let to_order = size_order(s, to.object as usize);
        let to_position = self.position(&to, holds::NOTHING);
        let from_position = self.position(&from, holds::PAGE);
        let most = 1u32 << from_order.saturating_sub(to_order);
        let index = match self.slips() {
            false => self.rng.within(0, (most - 1).min(0xFFFF)),
            true => self.rng.pick(&[most, most.wrapping_sub(1), 0xFFFF]),
        };
        let at = crate::layout::position_of(from.object as usize, from_position as usize & 0xFF);
        let flags = match self.rng.below(4) {
            0 => 0,
            _ => {
                let held = s.get(at + 1).copied().unwrap_or(0) as u32;
                self.flags(held)
            }
        };
        let p1 = halves(target, to_position);
        let p2 = halves(source, from_position);
        [
            self.nc(8, 0) | self.unread() & 0xFFFF,
            p1,
            p2,
            halves(flags, index),
        ]
    }

    /// A position of a directory within a right's range that holds what is wanted.
    fn position(&mut self, right: &Entry, wanted: u8) -> u32 {
        let directory = right.object as usize;
        if self.slips() {
            let end = crate::objects::positions(self.s, directory) as u32;
            return match self.rng.below(5) {
                0 => end,
                1 => self.rng.within(0, 0xFFFF),
                2 => right.low.wrapping_sub(1),
                3 => right.high.wrapping_add(1),
                _ => self.rng.within(0, end - 1),
            };
        }
        let fits = |i: u32, held: u8| right.covers(i) && held == wanted;
        look::position_in(self.s, self.rng, directory, fits).unwrap_or(right.low)
    }

    fn construct(&mut self) -> [u32; 4] {
        let s = self.s;
        let child = self.number_where(kinds::DIRECTORY, directory::CON_CHILD, move |e| {
            !is_top(s, e.object as usize)
        });
        let below = self.right_under(child, kinds::DIRECTORY).object as usize;
        let spanned = size_order(s, below) + number_order(s, below);
        let parent = self.number_where(kinds::DIRECTORY, directory::CON_PARENT, move |e| {
            size_order(s, e.object as usize) == spanned
        });
        let right = self.right_under(parent, kinds::DIRECTORY);
        let position = self.position(&right, holds::NOTHING);
        let p2 = self.whole(position);
        let w0 = self.nc(10, 0) | self.unread() & 0xFFFF;
        [w0, halves(parent, child), p2, self.rng.word()]
    }

    /// Calls 9 and 11.
    fn clear(&mut self, number: u32, flag: u32, wanted: u8) -> [u32; 4] {
        let s = self.s;
        let directory = self.number_where(kinds::DIRECTORY, flag, move |e| {
            let first = e.object as usize;
            (0..crate::objects::positions(s, first))
                .any(|i| e.covers(i as u32) && s[crate::layout::position_of(first, i)] == wanted)
        });
        let right = self.right_under(directory, kinds::DIRECTORY);
        let position = self.position(&right, wanted);
        let (p1, p2) = (self.whole(directory), self.whole(position));
        let w0 = self.nc(number, 0) | self.unread() & 0xFFFF;
        [w0, p1, p2, self.unread()]
    }

    fn create_process(&mut self) -> [u32; 4] {
        let s = self.s;
        let c = self.number(kinds::TABLE, table::CRT);
        let mem = self.number(kinds::MEMORY, memory::PROC);
        let its_table = self.number(kinds::TABLE, table::PROC_CRT);
        let top = !self.slips();
        let its_directory = self.number_where(kinds::DIRECTORY, directory::PROC_CRT, move |e| {
            is_top(s, e.object as usize) == top
        });
        let place = self.place_to_fill(self.table_under(c));
        let right = self.right_under(mem, kinds::MEMORY);
        let address = self.address(&right, 1);
        let p2 = halves(its_table, its_directory);
        [self.nc(12, c), halves(mem, place), p2, address]
    }

    fn change_table(&mut self) -> [u32; 4] {
        let of = self.number(kinds::PROCESS, process::CPT);
        let to = self.number(kinds::TABLE, table::PROC_CPT);
        let (p1, p2) = (self.whole(of), self.whole(to));
        let w0 = self.nc(14, 0) | self.unread() & 0xFFFF;
        [w0, p1, p2, self.unread()]
    }

    fn change_directory(&mut self) -> [u32; 4] {
        let s = self.s;
        let of = self.number(kinds::PROCESS, process::PGT);
        let top = !self.slips();
        let to = self.number_where(kinds::DIRECTORY, directory::PROC_PGT, move |e| {
            is_top(s, e.object as usize) == top
        });
        let (p1, p2) = (self.whole(of), self.whole(to));
        let w0 = self.nc(15, 0) | self.unread() & 0xFFFF;
        [w0, p1, p2, self.unread()]
    }

    fn create_endpoint(&mut self) -> [u32; 4] {
        let c = self.number(kinds::TABLE, table::CRT);
        let mem = self.number(kinds::MEMORY, memory::SIG);
        let place = self.place_to_fill(self.table_under(c));
        let right = self.right_under(mem, kinds::MEMORY);
        let address = self.address(&right, 1);
        let (p1, p2) = (self.whole(mem), self.whole(place));
        [self.nc(16, c), p1, p2, address]
    }

    fn send(&mut self) -> [u32; 4] {
        let to = self.number(kinds::ENDPOINT, endpoint::SND);
        let p1 = self.whole(to);
        let w0 = self.nc(18, 0) | self.unread() & 0xFFFF;
        [w0, p1, self.unread(), self.unread()]
    }

    fn receive(&mut self) -> [u32; 4] {
        let (mut option, flag) = self
            .rng
            .pick(&[(2, endpoint::RCV_NS), (3, endpoint::RCV_NM)]);
        let from = self.number(kinds::ENDPOINT, flag);
        if self.slips() {
            option = self.rng.pick(&[0, 1, 4, 0x1_0002, u32::MAX]);
        }
        let p1 = self.whole(from);
        let w0 = self.nc(19, 0) | self.unread() & 0xFFFF;
        [w0, p1, option, self.unread()]
    }

    fn function(&mut self) -> [u32; 4] {
        let c = self.number(kinds::FUNCTION, 0);
        let right = self.right_under(c, kinds::FUNCTION);
        let number = match self.slips() {
            false if self.rng.chance(70) => 0,
            false => right.low,
            true => self.rng.pick(&[
                right.low.wrapping_sub(1),
                right.high.wrapping_add(1),
                right.high,
                1,
            ]),
        };
        let p1 = halves(self.unread(), number);
        [self.nc(20, c), p1, self.unread(), self.unread()]
    }
}
