//! A book drawn in text: how full it is, and how far its searches go.

use crate::text::{counted, thousands};

/// The columns of a bar.
const WIDTH: usize = 36;

/// A bar: filled as far as a part goes of the whole, in full only by the whole, and not at all only by nothing.
pub fn bar(part: usize, whole: usize) -> String {
    let filled = (part * WIDTH).checked_div(whole).unwrap_or(0).clamp(usize::from(part > 0), WIDTH);
    format!("{}{}", "█".repeat(filled), "░".repeat(WIDTH - filled))
}

/// A part of a whole in percent, cut to one decimal.
pub fn percent(part: usize, whole: usize) -> String {
    let thousandth = (part * 1000).checked_div(whole).unwrap_or(0);
    format!("{}.{} %", thousandth / 10, thousandth % 10)
}

/// A line for each of the regions, all of one size, into which the slots are cut.
pub fn regions(taken: &[usize], size: usize) -> String {
    let line = |(number, &taken): (usize, &usize)| {
        let (first, last) = (thousands(number * size), thousands((number + 1) * size - 1));
        let label = if size == 1 { first } else { format!("{first} to {last}") };
        format!("  {label:<17}{} {} of {}\n", bar(taken, size), thousands(taken), thousands(size))
    };
    taken.iter().enumerate().map(line).collect()
}

/// The ranges of a histogram over 1 to `most`: 1, 2, 3, 4, then 5 to 8 and so on, each twice as far.
pub fn ranges(most: usize) -> Vec<(usize, usize)> {
    let mut ranges = Vec::new();
    let mut from = 1;
    while from <= most {
        let to = if from <= 4 { from } else { (from - 1) * 2 };
        ranges.push((from, to.min(most)));
        from = to + 1;
    }
    ranges
}

/// A line for each range of a histogram.
pub fn histogram(rows: &[((usize, usize), usize)], whole: usize) -> String {
    let line = |&((from, to), keys): &((usize, usize), usize)| {
        let label = if from == to {
            counted(from, "group")
        } else {
            format!("{} to {}", thousands(from), counted(to, "group"))
        };
        format!("  {label:<23}{} {} ({})\n", bar(keys, whole), thousands(keys), percent(keys, whole))
    };
    rows.iter().map(line).collect()
}

#[cfg(test)]
mod tests {
    use super::*;

    fn filled(bar: &str) -> usize {
        bar.chars().filter(|&c| c == '█').count()
    }

    #[test]
    fn a_bar_tells_nothing_something_and_all() {
        assert_eq!(filled(&bar(0, 4096)), 0);
        assert_eq!(filled(&bar(1, 4096)), 1);
        assert_eq!(filled(&bar(2048, 4096)), WIDTH / 2);
        assert_eq!(filled(&bar(4095, 4096)), WIDTH - 1);
        assert_eq!(filled(&bar(4096, 4096)), WIDTH);
        assert_eq!(filled(&bar(0, 0)), 0);
        assert_eq!(bar(7, 9).chars().count(), WIDTH);
    }

    #[test]
    fn percents_are_cut_and_not_rounded_up() {
        assert_eq!(percent(1, 3), "33.3 %");
        assert_eq!(percent(65_535, 65_536), "99.9 %");
        assert_eq!(percent(16, 16), "100.0 %");
        assert_eq!(percent(0, 0), "0.0 %");
    }

    #[test]
    fn ranges_cover_each_number_once() {
        assert_eq!(ranges(1), [(1, 1)]);
        assert_eq!(ranges(2), [(1, 1), (2, 2)]);
        assert_eq!(ranges(16), [(1, 1), (2, 2), (3, 3), (4, 4), (5, 8), (9, 16)]);
        assert_eq!(ranges(10).last(), Some(&(9, 10)));
        assert_eq!(ranges(8192).len(), 15);
        assert_eq!(ranges(0), []);
    }

    #[test]
    fn the_longest_lines_fit_a_terminal() {
        let widest = [regions(&[4096; 16], 4096), histogram(&[((4097, 8192), 65_536)], 65_536)].concat();
        assert!(widest.lines().all(|line| line.chars().count() <= 80), "{widest}");
    }
}
