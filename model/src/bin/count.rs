//! count: each action of the bench once, kernel and model, between two lines that it prints, so that a trace of the instructions
//! can be cut at the writes. Unlike a time, such a count is the same on every run and under an emulator; count.sh makes the table.

mod shared;

use model::drive::api::{Api, MODEL};
use model::drive::prepared::{self, Prepared};
use model::hex::WRITTEN;
use model::State;
use shared::kernel::{announce, KERNEL};

fn main() {
    announce();
    for state in [prepared::boot(), prepared::small(), prepared::full()] {
        let title = format!("{}, {} rights", state.name, state.rights());
        // What the cutting itself costs.
        both(&title, "nothing", &state.bytes, |_, _| 0, 0);
        let check = |api: &Api, s: &mut State| (api.check)(&s[..]) as i32;
        both(&title, "check", &state.bytes, check, 1);
        let tick = |api: &Api, s: &mut State| (api.tick)(&mut s[..]);
        both(&title, "tick", &state.bytes, tick, 0);
        for call in &state.calls {
            let act =
                |api: &Api, s: &mut State| (api.call)(&mut s[..], Prepared::CALLER, call.words);
            both(&title, call.name, &state.bytes, act, 0);
        }
    }
    // Its own rows: of every state it is the same work.
    let state = prepared::boot();
    let title = format!("{} as text", state.name);
    let mut text = vec![0; WRITTEN];
    both(&title, "nothing", &state.bytes, |_, _| 0, 0);
    let write = |api: &Api, s: &mut State| (api.write_hex)(&s[..], &mut text);
    both(&title, "write hex", &state.bytes, write, 0);
    let read = |api: &Api, s: &mut State| (api.read_hex)(&text, &mut s[..]);
    both(&title, "read hex", &state.bytes, read, 0);
}

fn both(
    title: &str,
    what: &str,
    s: &State,
    mut act: impl FnMut(&Api, &mut State) -> i32,
    answer: i32,
) {
    let kernel = format!("{title}; {what}; kernel");
    once(&kernel, s, |s| act(&KERNEL, s), answer);
    let model = format!("{title}; {what}; model");
    once(&model, s, |s| act(&MODEL, s), answer);
}

fn once(name: &str, s: &State, act: impl FnOnce(&mut State) -> i32, answer: i32) {
    let mut buffer = Box::new(*s);
    println!("{name}");
    let given = act(&mut buffer);
    println!("end");
    assert_eq!(given, answer, "{name}: not answered as prepared");
}
