//! Arguments for generated calls: fitting ones, and now and then a faulty one of each sort.

use super::look;
use super::rng::Rng;
use crate::entry::Entry;
use crate::kinds;
use crate::layout::{tag, State, BASE, END};
use crate::objects;

pub struct Arguments<'a> {
    pub s: &'a State,
    pub rng: &'a mut Rng,
    /// The first slot of the caller's table.
    pub table: usize,
    /// How many of 100 arguments are faulty.
    pub faulty: usize,
}

impl Arguments<'_> {
    pub fn slips(&mut self) -> bool {
        self.rng.chance(self.faulty)
    }

    /// A capability number for a kind and a flag, of one step or two.
    pub fn number(&mut self, kind: u32, flag: u32) -> u32 {
        self.number_where(kind, flag, |_| true)
    }

    /// The same, of a right that also fits a wish.
    pub fn number_where(&mut self, kind: u32, flag: u32, wish: impl Fn(&Entry) -> bool) -> u32 {
        let usable = |e: &Entry| e.kind == kind && !e.is_frozen();
        let found = if !self.slips() {
            self.seek(|e| usable(e) && e.flags & flag == flag && wish(e))
                .or_else(|| self.seek(|e| usable(e) && e.flags & flag == flag))
        } else {
            match self.rng.below(7) {
                0 | 1 => self.seek(|e| usable(e) && e.flags & flag != flag),
                2 => self.seek(|e| e.kind == kind && e.is_frozen()),
                3 => self.seek(|e| !e.is_blank() && e.kind != kind),
                4 => self.seek(|e| e.is_blank()),
                5 => self.through_bad_middle(kind),
                _ => None,
            }
        };
        found.unwrap_or_else(|| self.wild_number())
    }

    fn seek(&mut self, fits: impl Fn(&Entry) -> bool) -> Option<u32> {
        let fits = |_, e: &Entry| fits(e);
        if self.rng.chance(35) {
            for _ in 0..3 {
                let middle =
                    self.entry_in(self.table, |_, e| e.kind == kinds::TABLE && !e.is_frozen())?;
                let inner = look::under(self.s, self.table, middle)?.object as usize;
                if let Some(entry) = self.entry_in(inner, fits) {
                    return Some(middle << 8 | 128 | entry);
                }
            }
        }
        self.entry_in(self.table, fits)
    }

    /// A two-step number whose middle is frozen, of another kind, blank or out of range.
    fn through_bad_middle(&mut self, kind: u32) -> Option<u32> {
        let bad = self.rng.below(4);
        let middle = match bad {
            0 => self.entry_in(self.table, |_, e| e.kind == kinds::TABLE && e.is_frozen())?,
            1 => self.entry_in(self.table, |_, e| !e.is_blank() && e.kind != kinds::TABLE)?,
            2 => self.entry_in(self.table, |_, e| e.is_blank())?,
            _ => self
                .rng
                .within(objects::entries(self.s, self.table) as u32, 127),
        };
        let inner = match look::under(self.s, self.table, middle) {
            Some(e) if e.kind == kinds::TABLE => e.object as usize,
            _ => self.table,
        };
        let entry = self.entry_in(inner, |_, e| e.kind == kind).unwrap_or(127);
        Some(middle << 8 | 128 | entry)
    }

    fn wild_number(&mut self) -> u32 {
        let entries = objects::entries(self.s, self.table) as u32;
        match self.rng.below(6) {
            0 => entries,
            1 => self.rng.within(0, 127),
            2 => self.rng.within(1, 127) << 8 | self.rng.within(0, 127),
            3 => self.rng.within(0, 0xFFFF),
            4 => self.rng.within(0, entries) << 8 | 128 | self.rng.within(0, 127),
            _ => 0x8000 | self.rng.within(0, 0xFF),
        }
    }

    pub fn entry_in(&mut self, table: usize, fits: impl Fn(usize, &Entry) -> bool) -> Option<u32> {
        look::entry_in(self.s, self.rng, table, fits)
    }

    /// The table that a number leads to, or the caller's own if it leads to none.
    pub fn table_under(&self, number: u32) -> usize {
        match look::under(self.s, self.table, number) {
            Some(e) if e.kind == kinds::TABLE => e.object as usize,
            _ => self.table,
        }
    }

    /// The right of a kind under a number, or the boot state's of that kind.
    pub fn right_under(&self, number: u32, kind: u32) -> Entry {
        match look::under(self.s, self.table, number) {
            Some(e) if e.kind == kind => e,
            _ if kind == kinds::MEMORY => Entry::root(kind, BASE, END, 0),
            _ => {
                let wanted = kinds::object_tag(kind).unwrap_or(tag::TABLE);
                let object = look::firsts(self.s, wanted).first().copied();
                Entry::root(kind, 0, 0, object.unwrap_or(0))
            }
        }
    }

    pub fn place_to_fill(&mut self, table: usize) -> u32 {
        if self.slips() {
            return self.any_place(table);
        }
        match self.entry_in(table, |_, e| e.is_blank()) {
            Some(entry) => entry,
            None => self.any_place(table),
        }
    }

    /// A place that fits, or any.
    pub fn place_where(&mut self, table: usize, fits: impl Fn(usize, &Entry) -> bool) -> u32 {
        match self.slips() {
            false => self.entry_in(table, fits),
            true => None,
        }
        .unwrap_or_else(|| self.any_place(table))
    }

    fn any_place(&mut self, table: usize) -> u32 {
        let entries = objects::entries(self.s, table) as u32;
        match self.rng.below(6) {
            0 => entries,
            1 => self.rng.within(0, 0xFF),
            2 => self.entry_in(table, |_, e| e.is_frozen()).unwrap_or(0),
            3 => self.entry_in(table, |_, e| !e.is_blank()).unwrap_or(0),
            _ => self.rng.within(0, entries - 1),
        }
    }

    /// An address for so many slots under a memory right.
    pub fn address(&mut self, memory: &Entry, slots: usize) -> u32 {
        let bytes = 64 * slots as u32;
        if !self.slips() {
            let free = look::free_run(self.s, self.rng, memory.low, memory.high, slots);
            return free.unwrap_or(memory.low);
        }
        match self.rng.below(9) {
            0 => memory.low.wrapping_sub(64),
            1 => memory.high,
            2 => memory.high.wrapping_sub(bytes),
            3 => memory.high.wrapping_sub(bytes).wrapping_add(64),
            4 => self.rng.within(BASE, END),
            5 => self.rng.word(),
            // Its end passes 2^32, or just reaches it.
            8 => 0u32.wrapping_sub(64 * self.rng.within(1, slots as u32)),
            6 => objects::address_of(self.rng.below(256)) | 1 << self.rng.below(32),
            _ => objects::address_of(self.rng.below(256)),
        }
    }

    /// A subset of flags, not empty if they are not; faulty: none, or one too many.
    pub fn flags(&mut self, of: u32) -> u32 {
        if self.slips() {
            return match self.rng.below(3) {
                0 => 0,
                1 => of | 1 << self.rng.below(32),
                _ => self.rng.word() & self.rng.word(),
            };
        }
        let some = of & self.rng.word();
        if some == 0 || self.rng.chance(40) {
            of
        } else {
            some
        }
    }

    /// A range inside `low..=high` in steps; faulty: past an end, or inverted.
    pub fn range(&mut self, low: u32, high: u32, step: u32) -> (u32, u32) {
        if low > high {
            return (low, high);
        }
        let n = ((high - low) / step) as usize + 1;
        let mut ends = [self.rng.below(n), self.rng.below(n)].map(|i| low + i as u32 * step);
        ends.sort();
        if self.rng.chance(30) {
            ends = [low, high];
        }
        if self.slips() {
            match self.rng.below(4) {
                0 => ends[0] = low.wrapping_sub(step),
                1 => ends[1] = high.wrapping_add(step),
                2 => ends[1] = ends[0],
                _ => ends.reverse(),
            }
        }
        (ends[0], ends[1])
    }
}
