//! Recorded cases: the boot state's text as the writer makes it, with one part replaced, and what
//! reading that text gives.

use super::{sorts, Draft, Sort};
use crate::drive::rng::Rng;
use crate::drive::sound;
use crate::hex::record::digits;
use crate::hex::{lines_taken, read, written};
use crate::layout::SIZE;

/// The format, as a comment at the file's top.
pub const FORMAT: &str = "\
# Texts for reading, each the boot state's text of 48,076 bytes with one part replaced. One line is
# one text, its fields apart by one space, all numbers decimal:
#   ANSWER TAKEN FROM TO BYTES
# The bytes FROM to before TO of the boot state's text (the first is 0) are replaced by BYTES, which
# are pairs of hex digits, or - where there are none. ANSWER is the answer to be expected; where it
# is 0 the state read is the boot state. TAKEN is how many lines are taken before the first faulty
# one. A line that begins with # is a comment.
";

/// No line is longer than this, its line feed not counted.
pub const LONGEST: usize = 1024;

/// Texts looked at before a sort is held to have no other.
const TRIES: usize = 60;

pub struct Case {
    pub answer: i32,
    pub line: String,
}

/// So many cases, no two of a sort the same: one of each sort in turn, as long as it has another.
pub fn cases(count: usize, rng: &mut Rng) -> Vec<(&'static Sort, Vec<Case>)> {
    let mut groups: Vec<(&Sort, Vec<Case>)> = sorts().map(|sort| (sort, vec![])).collect();
    let mut made = 0;
    let mut before = count;
    while made < count && made != before {
        before = made;
        for (sort, group) in groups.iter_mut() {
            if made == count {
                break;
            }
            if let Some(case) = another(sort, group, rng) {
                group.push(case);
                made += 1;
            }
        }
    }
    groups
}

fn another(sort: &Sort, group: &[Case], rng: &mut Rng) -> Option<Case> {
    let boot = sound::booted();
    let plain = written(&boot[..]);
    for _ in 0..TRIES {
        let mut draft = Draft::as_written(&boot, rng);
        if (sort.2)(&mut draft, rng).is_none() {
            continue;
        }
        let text = draft.text();
        let mut s = [0; SIZE];
        let answer = read(&text, &mut s);
        let taken = lines_taken(&text);
        let line = format!("{answer} {taken} {}", replaced(&plain, &text));
        let new = group.iter().all(|case| case.line != line);
        if new && line.len() <= LONGEST && (answer != 0 || s == *boot) {
            return Some(Case { answer, line });
        }
    }
    None
}

/// The part in which a text differs from the plain one, as `FROM TO BYTES`.
fn replaced(plain: &[u8], text: &[u8]) -> String {
    let shorter = plain.len().min(text.len());
    let from = (0..shorter)
        .find(|&i| plain[i] != text[i])
        .unwrap_or(shorter);
    let behind = (0..shorter - from)
        .find(|&i| plain[plain.len() - 1 - i] != text[text.len() - 1 - i])
        .unwrap_or(shorter - from);
    let bytes = &text[from..text.len() - behind];
    let spelled: String = bytes
        .iter()
        .flat_map(|&byte| digits(byte))
        .map(char::from)
        .collect();
    let spelled = match bytes {
        [] => "-",
        _ => &spelled,
    };
    format!("{from} {} {spelled}", plain.len() - behind)
}
