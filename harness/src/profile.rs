//! What callgrind writes: a part for each dump, whose last line has the sum of its counts.

/// The instructions of each part that has any. The last part, written when the program ends, has none.
pub fn counts(profile: &str) -> Vec<u64> {
    let totals = profile
        .lines()
        .filter_map(|line| line.strip_prefix("totals: "));
    let counts = totals.map(|total| total.trim().parse().expect("one event, a number"));
    counts.filter(|&count: &u64| count > 0).collect()
}
