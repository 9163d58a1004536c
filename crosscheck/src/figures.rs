//! Medians and spreads of repeated times, and ratios held against aims.

use std::fmt;

/// The middle of some times, and the times that one in ten lies below and one in ten above.
#[derive(Clone, Copy, Debug, PartialEq)]
pub struct Spread {
    pub low: f64,
    pub median: f64,
    pub high: f64,
}

impl Spread {
    /// Of at least one time.
    pub fn of(times: &[f64]) -> Self {
        let mut times = times.to_vec();
        times.sort_by(f64::total_cmp);
        let at = |tenths: usize| times[(times.len() - 1) * tenths / 10];
        Spread { low: at(1), median: at(5), high: at(9) }
    }
}

/// In whole numbers, or with as many decimals as the format asks for.
impl fmt::Display for Spread {
    fn fmt(&self, out: &mut fmt::Formatter) -> fmt::Result {
        let places = out.precision().unwrap_or(0);
        write!(out, "{:.places$} ({:.places$} to {:.places$})", self.median, self.low, self.high)
    }
}

/// How many times faster one program is than another, beside what that is to be at least.
pub fn held_against(aim: f64, ratio: f64) -> String {
    let verdict = if ratio < aim { "falls short" } else { "reached" };
    format!("ratio {ratio:.2}, aim {aim:.1}: {verdict}")
}

#[cfg(test)]
mod tests {
    use super::{held_against, Spread};

    #[test]
    fn a_ratio_is_held_against_its_aim() {
        assert_eq!(held_against(4.0, 3.99), "ratio 3.99, aim 4.0: falls short");
        assert_eq!(held_against(4.0, 4.0), "ratio 4.00, aim 4.0: reached");
    }

    #[test]
    fn the_middle_of_some_times() {
        let times: Vec<f64> = (0..31).rev().map(f64::from).collect();
        assert_eq!(Spread::of(&times), Spread { low: 3.0, median: 15.0, high: 27.0 });
        assert_eq!(Spread::of(&[7.0]), Spread { low: 7.0, median: 7.0, high: 7.0 });
        assert_eq!(Spread::of(&times).to_string(), "15 (3 to 27)");
        assert_eq!(format!("{:.1}", Spread::of(&times)), "15.0 (3.0 to 27.0)");
    }
}
