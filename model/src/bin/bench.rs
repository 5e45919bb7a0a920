//! bench [runs]: the time of one check, of one call, and of the boot state written as HEX and read
//! back, kernel beside model, as medians in ns.

mod shared;

use model::drive::api::{Api, MODEL};
use model::drive::command;
use model::drive::prepared::{self, Prepared};
use model::hex::WRITTEN;
use model::State;
use shared::kernel::{announce, KERNEL};
use std::time::Instant;

fn main() {
    announce();
    let runs = command::number(1, 2_001) as usize;
    println!(
        "median of {runs} runs each, in ns; the clock's own cost is {} ns",
        clock_cost(runs)
    );
    println!(
        "Before every run the buffer is overwritten with the prepared state, so it is warm in"
    );
    println!("the cache; it is not cleared to zero first. One run is one check or one call.");
    println!("{:<34}{:>9}{:>9}{:>9}", "", "kernel", "model", "ratio");
    for state in [prepared::boot(), prepared::small(), prepared::full()] {
        println!("{} ({} rights)", state.name, state.rights());
        line(
            "check",
            runs,
            &state.bytes,
            |api, s| (api.check)(&s[..]) as i32,
            1,
        );
        line(
            "tick",
            runs,
            &state.bytes,
            |api, s| (api.tick)(&mut s[..]),
            0,
        );
        for call in &state.calls {
            let act =
                |api: &Api, s: &mut State| (api.call)(&mut s[..], Prepared::CALLER, call.words);
            line(call.name, runs, &state.bytes, act, 0);
        }
    }
    let state = prepared::boot();
    println!("{} as text", state.name);
    let mut text = vec![0; WRITTEN];
    let write = |api: &Api, s: &mut State| (api.write_hex)(&s[..], &mut text);
    line("write hex", runs, &state.bytes, write, 0);
    let read = |api: &Api, s: &mut State| (api.read_hex)(&text, &mut s[..]);
    line("read hex", runs, &state.bytes, read, 0);
}

fn line(
    what: &str,
    runs: usize,
    s: &State,
    mut act: impl FnMut(&Api, &mut State) -> i32,
    answer: i32,
) {
    let kernel = median(runs, s, |s| act(&KERNEL, s), answer);
    let model = median(runs, s, |s| act(&MODEL, s), answer);
    let ratio = kernel as f64 / model.max(1) as f64;
    println!("  {what:<32}{kernel:>9}{model:>9}{ratio:>9.1}");
}

fn median(runs: usize, s: &State, mut act: impl FnMut(&mut State) -> i32, answer: i32) -> u128 {
    let mut buffer = Box::new(*s);
    let mut times: Vec<u128> = (0..runs)
        .map(|_| {
            *buffer = *s;
            let start = Instant::now();
            let given = act(&mut buffer);
            let time = start.elapsed().as_nanos();
            assert_eq!(
                given, answer,
                "a call of the bench was not answered as prepared"
            );
            time
        })
        .collect();
    times.sort();
    times[runs / 2]
}

fn clock_cost(runs: usize) -> u128 {
    let mut times: Vec<u128> = (0..runs)
        .map(|_| Instant::now().elapsed().as_nanos())
        .collect();
    times.sort();
    times[runs / 2]
}
