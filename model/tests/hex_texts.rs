//! The generated texts: repeatable, each sort of change with the answers that it names, and every
//! style of accepted text.

use model::drive::hex::recorded::{cases, LONGEST};
use model::drive::hex::{sorts, Draft};
use model::drive::rng::Rng;
use model::drive::sound;
use model::hex::{lines_taken, read, written};
use model::SIZE;
use std::collections::BTreeSet;

#[test]
fn the_seed_decides() {
    let text = |seed| Draft::at_random(&sound::booted(), &mut Rng::new(seed)).text();
    assert!(text(7) == text(7));
    assert!(text(7) != text(8));
}

/// Of each sort in any style, and as the writer has it, the answers are those that it names, and no
/// others; behind the faulty line nothing is looked at.
#[test]
fn each_sort_and_its_answers() {
    let mut rng = Rng::new(3);
    let states = sound::states(&mut rng, 6);
    for sort in sorts() {
        let mut met = BTreeSet::new();
        for i in 0..80 {
            let s = &states[i % states.len()];
            let mut draft = match i % 4 {
                0 => Draft::as_written(s, &mut rng),
                _ => Draft::at_random(s, &mut rng),
            };
            if (sort.2)(&mut draft, &mut rng).is_none() {
                continue;
            }
            let text = draft.text();
            let mut given = [0x5A; SIZE];
            let answer = read(&text, &mut given);
            met.insert(answer);
            assert!(sort.1.contains(&answer), "{}: {answer}", sort.0);
            assert!(answer == 0 || given == [0x5A; SIZE]);
            if answer <= -30 {
                let lines = text.split_inclusive(|&byte| byte == b'\n');
                let cut: Vec<u8> = lines
                    .take(lines_taken(&text) + 1)
                    .flatten()
                    .copied()
                    .collect();
                assert_eq!(read(&cut, &mut given), answer, "{}: cut", sort.0);
                assert_eq!(lines_taken(&cut), lines_taken(&text));
            }
        }
        let named: BTreeSet<i32> = sort.1.iter().copied().collect();
        assert_eq!(met, named, "{}", sort.0);
    }
}

/// An accepted text gives the state that it is of, in all its lines.
#[test]
fn every_style_is_accepted() {
    let mut rng = Rng::new(4);
    let states = sound::states(&mut rng, 6);
    for i in 0..400 {
        let s = &states[i % states.len()];
        let draft = Draft::at_random(s, &mut rng);
        let (text, mut given) = (draft.text(), [0; SIZE]);
        assert_eq!(read(&text, &mut given), 0);
        assert!(given == **s);
        assert_eq!(lines_taken(&text), draft.lines.len());
    }
}

/// A recorded line, read as the file's top says, gives the text and the answer that it was made of.
#[test]
fn recorded_cases() {
    let boot = sound::booted();
    let plain = written(&boot[..]);
    let mut answers = BTreeSet::new();
    let groups = cases(300, &mut Rng::new(1));
    assert_eq!(
        groups.iter().map(|(_, group)| group.len()).sum::<usize>(),
        300
    );
    for (sort, group) in groups {
        assert!(!group.is_empty(), "{}", sort.0);
        for case in group {
            assert!(case.line.len() <= LONGEST);
            let fields: Vec<&str> = case.line.split(' ').collect();
            let number = |i: usize| fields[i].parse::<usize>().unwrap();
            let bytes: Vec<u8> = match fields[4] {
                "-" => vec![],
                digits => (0..digits.len() / 2)
                    .map(|i| u8::from_str_radix(&digits[2 * i..2 * i + 2], 16).unwrap())
                    .collect(),
            };
            let text = [&plain[..number(2)], &bytes, &plain[number(3)..]].concat();
            let mut given = [0; SIZE];
            let answer = read(&text, &mut given);
            assert_eq!(fields[0], answer.to_string());
            assert_eq!(number(1), lines_taken(&text));
            assert!(answer != 0 || given == *boot);
            assert!(sort.1.contains(&answer));
            answers.insert(answer);
        }
    }
    assert!(answers.into_iter().eq([-33, -32, -31, -30, -19, 0]));
}
