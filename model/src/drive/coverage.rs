//! The table of pairs (call number, class of answer) met, and which pairs are possible.

/// Classes of answer, as columns: 0, a positive count, then −1 to −19.
const CLASSES: usize = 21;
/// Rows: the call numbers 1..20 and, last, every other number.
const ROWS: usize = 21;

pub struct Coverage([[u64; CLASSES]; ROWS]);

fn row(number: u32) -> usize {
    match number {
        1..=20 => number as usize - 1,
        _ => 20,
    }
}

fn class(answer: i32) -> usize {
    match answer {
        0 => 0,
        1.. => 1,
        -19..=-1 => 1 + answer.unsigned_abs() as usize,
        _ => panic!("answer {answer} is none of document 01"),
    }
}

fn class_name(class: usize) -> String {
    match class {
        0 => "0".into(),
        1 => "+".into(),
        _ => format!("-{}", class - 1),
    }
}

/// The answers that a call can give beside −18 and −19, which every number gives.
///
/// The arguments decide: a capability number gives −1, −2, −3 and, where a flag is asked, −5; a
/// place to fill −1, −2, −6; a place to delete −1, −2, −3, −4, −8, −9; an address −5, −7. So:
/// −4 needs a place that must be filled, or function; −6 a place to fill, or a table to delete;
/// −7 a creation; −8 and −9 a deletion or removal; −10 a geometry, a top mark, a hanging directory
/// or a source without page; −11 to −13 positions, of which only map asks for page flags; −14
/// send; −15 receive; −16 the deletion of an endpoint; −17 no call. A positive answer needs a
/// count or the clock. Function asks no flag, but its range gives −5.
pub fn possible(number: u32) -> &'static [i32] {
    match number {
        1 | 16 => &[0, -1, -2, -3, -5, -6, -7],
        2 => &[0, -1, -2, -3, -4, -5, -6, -8, -9],
        3 => &[0, -1, -2, -3, -4, -5, -6],
        4 => &[0, -1, -2, -3, -4, -5],
        5 => &[0, -1, -2, -3, -4, -5, -8, -9],
        6 | 12 => &[0, -1, -2, -3, -5, -6, -7, -10],
        7 => &[0, -1, -2, -3, -4, -5, -8, -9, -10],
        8 => &[0, -1, -2, -3, -5, -10, -11, -12, -13],
        9..=11 => &[0, -1, -2, -3, -5, -11, -12],
        13 => &[0, -1, -2, -3, -4, -5, -8, -9],
        14 => &[0, -1, -2, -3, -5],
        15 => &[0, -1, -2, -3, -5, -10],
        17 => &[0, -1, -2, -3, -4, -5, -8, -9, -16],
        18 => &[0, -1, -2, -3, -5, -14],
        19 => &[0, 1, -1, -2, -3, -5, -15],
        20 => &[0, 1, -1, -2, -3, -4, -5],
        _ => &[-17],
    }
}

fn is_possible(row: usize, class: usize) -> bool {
    let number = if row == 20 { 0 } else { row as u32 + 1 };
    class > 18 || possible(number).iter().any(|&a| self::class(a) == class)
}

impl Coverage {
    pub fn new() -> Coverage {
        Coverage([[0; CLASSES]; ROWS])
    }

    /// Notes a pair, and answers how often it was met before.
    pub fn note(&mut self, number: u32, answer: i32) -> u64 {
        let cell = &mut self.0[row(number)][class(answer)];
        *cell += 1;
        *cell - 1
    }

    pub fn met(&self, number: u32, answer: i32) -> u64 {
        self.0[row(number)][class(answer)]
    }

    /// Possible pairs never met, and impossible pairs met.
    pub fn gaps(&self) -> (Vec<String>, Vec<String>) {
        let (mut missing, mut wrong) = (vec![], vec![]);
        for (r, cells) in self.0.iter().enumerate() {
            for (c, &count) in cells.iter().enumerate() {
                let name = || format!("({}, {})", row_name(r), class_name(c));
                match (is_possible(r, c), count) {
                    (true, 0) => missing.push(name()),
                    (false, 1..) => wrong.push(name()),
                    _ => {}
                }
            }
        }
        (missing, wrong)
    }

    /// How many pairs are possible.
    pub fn pairs() -> usize {
        (0..ROWS)
            .map(|r| (0..CLASSES).filter(|&c| is_possible(r, c)).count())
            .sum()
    }

    /// Prints the table ('.' is impossible) and the gaps; answers whether there are none.
    pub fn print(&self) -> bool {
        print!("call ");
        (0..CLASSES).for_each(|c| print!("{:>8}", class_name(c)));
        println!();
        for (r, cells) in self.0.iter().enumerate() {
            print!("{:>5}", row_name(r));
            for (c, &count) in cells.iter().enumerate() {
                match (is_possible(r, c), count) {
                    (false, 0) => print!("{:>8}", "."),
                    (false, n) => print!("{:>8}", format!("?{n}")),
                    (true, 0) => print!("{:>8}", "NEVER"),
                    (true, n) => print!("{n:>8}"),
                }
            }
            println!();
        }
        let (missing, wrong) = self.gaps();
        println!("possible pairs: {}", Coverage::pairs());
        println!("possible, never met: {}", list(&missing));
        println!("held impossible, but met: {}", list(&wrong));
        missing.is_empty() && wrong.is_empty()
    }
}

impl Default for Coverage {
    fn default() -> Coverage {
        Coverage::new()
    }
}

fn row_name(row: usize) -> String {
    match row {
        20 => "other".into(),
        _ => (row + 1).to_string(),
    }
}

fn list(names: &[String]) -> String {
    if names.is_empty() {
        "none".into()
    } else {
        names.join(" ")
    }
}
