//! Damages of a sound state, aimed so that every clause of "well formed" is met. Some leave a
//! sound state: both checks must say yes to those.

mod directories;
mod entries;
mod notes;
mod parents;
mod pick;
mod small;

use super::rng::Rng;
use crate::layout::State;

/// How much of the state a damage touches.
#[derive(Clone, Copy, Debug, PartialEq, Eq)]
pub enum Level {
    Bit,
    Byte,
    Word,
    Many,
}

/// Damages a sound state, or answers None, the state untouched, if nothing there fits.
pub type Apply = fn(&mut State, &mut Rng) -> Option<()>;

/// Its name, how much it touches, and how it is done.
pub struct Damage(pub &'static str, pub Level, pub Apply);

/// Damages aimed at no field; they fit any state, sound or not.
pub static LOOSE: [Damage; 3] = small::LOOSE;

static AIMED: [&[Damage]; 5] = [
    &small::AIMED,
    &notes::AIMED,
    &entries::AIMED,
    &parents::AIMED,
    &directories::AIMED,
];

/// Damages aimed at fields that have a meaning.
pub fn aimed() -> impl Iterator<Item = &'static Damage> {
    AIMED.iter().flat_map(|group| group.iter())
}

/// Damages a sound state once; what was not to be had is tried again.
pub fn at_random(s: &mut State, r: &mut Rng) -> &'static Damage {
    let n = aimed().count();
    loop {
        let damage = match r.below(n + LOOSE.len()) {
            i if i < n => aimed().nth(i),
            i => LOOSE.get(i - n),
        };
        if let Some(damage) = damage.filter(|Damage(_, _, apply)| apply(s, r).is_some()) {
            return damage;
        }
    }
}
