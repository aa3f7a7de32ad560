//! The last columns of the tables whose times are for a byte: ours and plain, or the one that there is; and how they grow.
use crate::timing;

/// The names of those that are timed, and that of the ratio.
pub fn heads(names: &[&str]) -> String {
    let all: String = names.iter().map(|name| format!("{:>9}", name)).collect();
    all + if names.len() > 1 { "  ours/plain" } else { "" }
}

/// Their nanoseconds for a byte, and the ratio.
pub fn times(times: &[f64]) -> String {
    let all: String = times.iter().map(|time| format!("{:>9.3}", time)).collect();
    match times[..] {
        [ours, plain] => all + &format!("{:>12.2}", ours / plain),
        _ => all,
    }
}

/// The line about a byte's time in the largest things of a kind, beside that in the smallest: how many bytes they have,
/// and the times.
pub fn print_growth(names: &[&str], smallest: (usize, &[f64]), largest: (usize, &[f64])) {
    let (from, to) = (smallest.1, largest.1);
    let grown = names.iter().enumerate().map(|(at, &name)| (name, to[at] / from[at]));
    timing::print_growth("byte", smallest.0, largest.0, grown);
}
