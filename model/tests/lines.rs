//! The generated console lines: repeatable, and meeting what a console can meet.

use model::console::{read, Line, Wrong, LONGEST};
use model::drive::bad_lines::BadLines;
use model::drive::coverage::Coverage;
use model::drive::lines::Lines;
use model::drive::rng::Rng;
use std::collections::BTreeMap;
use std::mem::discriminant;

const COUNT: usize = 50_000;

/// Without the newline that each has, and that each has once.
fn lines(seed: u64) -> Vec<Vec<u8>> {
    Lines::new(seed, None)
        .take(COUNT)
        .map(|mut line| {
            assert_eq!(line.pop(), Some(b'\n'));
            assert!(!line.contains(&b'\n'));
            line
        })
        .collect()
}

#[test]
fn the_seed_decides() {
    let (first, again, other) = (lines(1), lines(1), lines(2));
    assert_eq!(first.len(), COUNT);
    assert!(first == again);
    assert!(first != other);
}

/// Every pair of call and answer but those that need bytes written directly: −19, and a count of
/// 2^32−1.
#[test]
fn all_that_a_console_can_meet() {
    let mut s = vec![0; model::SIZE];
    model::boot(&mut s);
    let mut met = Coverage::new();
    for line in lines(1) {
        match read(&line) {
            Ok(Line::Boot) => {
                model::boot(&mut s);
            }
            Ok(Line::Tick(ticks)) => (0..ticks).for_each(|_| {
                model::tick(&mut s);
            }),
            Ok(Line::Call { caller, words }) => {
                let [w0, w1, w2, w3] = words;
                let answer = model::call(&mut s, caller, w0, w1, w2, w3);
                met.note(w0 >> 16 & 63, answer);
            }
            _ => {}
        }
    }
    let (mut missing, wrong) = met.gaps();
    missing.retain(|pair| !pair.ends_with(" -19)") && pair != "(18, -14)");
    assert!(missing.is_empty(), "never met: {missing:?}");
    assert!(wrong.is_empty(), "impossible: {wrong:?}");
}

#[test]
fn every_sort_of_line() {
    let all = lines(1);
    let (mut bad, mut shows, mut boots) = (0, 0, 0);
    let mut kinds = vec![];
    let mut before = Line::Nothing;
    for line in &all {
        match read(line) {
            Err(wrong) => {
                bad += 1;
                if !kinds.contains(&discriminant(&wrong)) {
                    kinds.push(discriminant(&wrong));
                }
            }
            Ok(said) => {
                shows += (said == Line::Show) as usize;
                if said == Line::Boot {
                    boots += 1;
                    assert_eq!(before, Line::Show, "a boot without a show before it");
                }
                before = said;
            }
        }
    }
    assert_eq!(kinds.len(), 10);
    assert!((COUNT / 40..COUNT / 25).contains(&bad), "{bad} bad lines");
    assert!((COUNT / 400..COUNT / 250).contains(&boots), "{boots} boots");
    assert!(shows > boots + COUNT / 150, "{shows} shows");
    let of_length = |n: usize| all.iter().filter(|line| line.len() == n).count();
    assert!(of_length(LONGEST) > 0 && of_length(LONGEST + 1) > 0);
    // Lines of the greatest length that say something, and carriage returns at the end.
    let full =
        |line: &&Vec<u8>| line.len() == LONGEST && matches!(read(line), Ok(Line::Call { .. }));
    assert!(all.iter().any(|line| full(&line)));
    assert!(all.iter().filter(|line| line.ends_with(b"\r")).count() > COUNT / 50);
}

#[test]
fn bad_lines_are_bad() {
    let mut rng = Rng::new(5);
    let mut bad = BadLines::default();
    let mut met: BTreeMap<String, usize> = BTreeMap::new();
    for _ in 0..20_000 {
        let line = bad.next(&mut rng);
        let wrong = match read(&line) {
            Err(wrong) => wrong,
            Ok(_) => panic!("{:?} can be read", String::from_utf8_lossy(&line)),
        };
        *met.entry(wrong.to_string()).or_default() += 1;
    }
    // Each of the five words of a call is at fault somewhere, in either way.
    for k in 1..=5 {
        assert!(met.contains_key(&Wrong::NotANumber(k).to_string()));
        assert!(met.contains_key(&Wrong::TooLarge(k).to_string()));
    }
    assert!(met.contains_key(&Wrong::Call(512).to_string()));
}
