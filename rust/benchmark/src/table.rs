//! What many runs come to, and how it is printed.

/// The number below which `part` of at least one number lie, between two neighbours in proportion.
fn quantile(numbers: &[f64], part: f64) -> f64 {
    let mut sorted = numbers.to_vec();
    sorted.sort_by(f64::total_cmp);
    let rank = part * (sorted.len() - 1) as f64;
    let below = sorted[rank.floor() as usize];
    let above = sorted[rank.ceil() as usize];
    below + (above - below) * rank.fract()
}

/// What the runs of one side took, in nanoseconds a call: the median and the quartiles.
fn told(runs: &[f64]) -> String {
    let [lower, median, upper] = [0.25, 0.5, 0.75].map(|part| quantile(runs, part));
    format!("{median:.1} ({lower:.1} to {upper:.1})")
}

/// Prints the table against one side in Markdown, if it has lines.
pub fn print(side: &str, lines: &[String]) {
    if !lines.is_empty() {
        println!("\n| operation and inputs | library, ns a call | {side}, ns a call | ratio |\n|---|---:|---:|---:|");
        println!("{}", lines.join("\n"));
    }
}

/// The table's line of an operation with its inputs. The ratio, below 1 where the library is quicker, is taken run by
/// run: what slows the machine for a while slows both runs of a pair.
pub fn line(name: &str, library: &[f64], other: &[f64]) -> String {
    let ratios: Vec<f64> = library.iter().zip(other).map(|(left, right)| left / right).collect();
    let ratio = quantile(&ratios, 0.5);
    format!("| {name} | {} | {} | {ratio:.2} |", told(library), told(other))
}

/// A number with commas between its thousands.
pub fn grouped(number: usize) -> String {
    let digits = number.to_string();
    let mut text = String::new();
    for (at, digit) in digits.chars().enumerate() {
        if at > 0 && (digits.len() - at).is_multiple_of(3) {
            text.push(',');
        }
        text.push(digit);
    }
    text
}

#[cfg(test)]
mod tests {
    use super::*;

    #[test]
    fn runs_come_to_median_and_quartiles() {
        assert_eq!(told(&[5.0, 1.0, 4.0, 2.0, 3.0]), "3.0 (2.0 to 4.0)");
        assert_eq!(told(&[4.6, 1.0, 3.0, 2.2]), "2.6 (1.9 to 3.4)");
        assert_eq!(told(&[7.5]), "7.5 (7.5 to 7.5)");
        assert_eq!(told(&[3.0, 3.0, 900.0, 3.0, 3.0]), "3.0 (3.0 to 3.0)");
    }

    /// The machine is slow for the last pair; the ratio of the medians would be 2 / 6.
    #[test]
    fn the_ratio_is_taken_pair_by_pair() {
        let line = line("reading, near", &[1.0, 2.0, 6.0], &[2.0, 6.0, 12.0]);
        assert_eq!(line, "| reading, near | 2.0 (1.5 to 4.0) | 6.0 (4.0 to 9.0) | 0.50 |");
    }

    #[test]
    fn thousands_are_grouped() {
        let told = [0, 999, 1_000, 16_384, 1_000_000].map(grouped);
        assert_eq!(told, ["0", "999", "1,000", "16,384", "1,000,000"]);
    }
}
