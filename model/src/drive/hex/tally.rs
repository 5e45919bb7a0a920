//! How often each sort of text or damage met each answer, as a table.

const ANSWERS: [i32; 7] = [0, -19, -30, -31, -32, -33, -34];

struct Row {
    name: &'static str,
    /// The answers that should be met.
    named: Vec<i32>,
    met: [u64; ANSWERS.len()],
}

/// Rows in the order in which they were first met.
#[derive(Default)]
pub struct Tally(Vec<Row>);

impl Tally {
    /// A row, so that it is printed even if it is never met.
    pub fn row(&mut self, name: &'static str, named: &[i32]) {
        self.0.push(Row {
            name,
            named: named.to_vec(),
            met: [0; ANSWERS.len()],
        });
    }

    pub fn note(&mut self, name: &str, answer: i32) {
        let row = self.0.iter_mut().find(|row| row.name == name);
        let column = ANSWERS.iter().position(|&a| a == answer);
        match (row, column) {
            (Some(row), Some(column)) => row.met[column] += 1,
            _ => panic!("{name}: no row of this name, or no column for {answer}"),
        }
    }

    /// Prints the table: `.` is an answer that the sort does not name, `?` one that it met all the
    /// same, `NEVER` one that it should have met.
    pub fn print(&self) {
        print!("{:<40}", "");
        ANSWERS.iter().for_each(|answer| print!("{answer:>8}"));
        println!();
        for row in &self.0 {
            print!("{:<40}", row.name);
            for (&answer, &met) in ANSWERS.iter().zip(&row.met) {
                let named = row.named.contains(&answer);
                match (named, met) {
                    (false, 0) => print!("{:>8}", "."),
                    (false, n) => print!("{:>8}", format!("?{n}")),
                    (true, 0) => print!("{:>8}", "NEVER"),
                    (true, n) => print!("{n:>8}"),
                }
            }
            println!();
        }
    }
}
