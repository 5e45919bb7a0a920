//! Arguments of the command line.

/// The n-th argument as a number, or a default.
pub fn number(n: usize, default: u64) -> u64 {
    match std::env::args().nth(n) {
        None => default,
        Some(text) => text.replace('_', "").parse().unwrap_or_else(|_| {
            eprintln!("argument {n} must be a number, not {text}");
            std::process::exit(2)
        }),
    }
}
