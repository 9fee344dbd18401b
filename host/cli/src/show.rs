//! Numbers, runs and tables as people read them.

use booktext::run_text;

/// A number with commas between its thousands.
pub fn grouped(number: impl TryInto<u64>) -> String {
    let digits = number.try_into().unwrap_or(u64::MAX).to_string();
    let groups: Vec<&str> =
        (0..digits.len().div_ceil(3)).rev().map(|back| &digits[digits.len().saturating_sub(3 * (back + 1))..digits.len() - 3 * back]).collect();
    groups.join(",")
}

/// So many of something.
pub fn count(number: usize, noun: &str) -> String {
    match number {
        1 => format!("1 {noun}"),
        _ => format!("{} {noun}s", grouped(number as u64)),
    }
}

/// Parts of one run as text: all of them in letters, or all in numbers where a step has no letter; an empty part is nothing.
pub fn parts_text(parts: &[&[u8]]) -> Vec<String> {
    let in_letters = run_text(&parts.concat()).bytes().all(|byte| byte.is_ascii_lowercase() || byte == b'-');
    let text = |part: &&[u8]| match (part.is_empty(), in_letters) {
        (true, _) => String::new(),
        (false, true) => run_text(part),
        (false, false) => part.iter().map(u8::to_string).collect::<Vec<_>>().join("."),
    };
    parts.iter().map(text).collect()
}

/// Parts of a run with strokes between them.
pub fn drawn(parts: &[&[u8]]) -> String {
    parts_text(parts).join("|")
}

/// A run of which at most so many steps are shown: of a longer one its front and its end, and how many steps lie between them.
pub fn short(steps: &[u8], most: usize) -> String {
    let most = most.max(2);
    if steps.len() <= most {
        return run_text(steps);
    }
    let (front, end) = (most.div_ceil(2), most / 2);
    let left_out = format!("...[{}]...", grouped((steps.len() - most) as u64));
    parts_text(&[&steps[..front], &steps[steps.len() - end..]]).join(&left_out)
}

/// Things in a row: a, b and c.
pub fn listed(items: &[String]) -> String {
    match items {
        [] => String::new(),
        [one] => one.clone(),
        [front @ .., last] => format!("{} and {last}", front.join(", ")),
    }
}

/// Lines of a table, its columns as wide as they must be; numbers stand at the right of theirs.
pub fn table<const N: usize>(head: [&str; N], rows: &[[String; N]]) -> Vec<String> {
    let head = head.map(String::from);
    let width = |column: usize| rows.iter().chain([&head]).map(|row| row[column].chars().count()).max().unwrap_or(0);
    let widths: [usize; N] = std::array::from_fn(width);
    let is_number = |text: &str| text.bytes().all(|byte| byte.is_ascii_digit());
    let numeric: [bool; N] = std::array::from_fn(|column| rows.iter().all(|row| is_number(&row[column])));
    let line = |row: &[String; N]| {
        let cells = (0..N).map(|column| match numeric[column] {
            true => format!("{:>width$}", row[column], width = widths[column]),
            false => format!("{:<width$}", row[column], width = widths[column]),
        });
        cells.collect::<Vec<_>>().join("  ").trim_end().to_string()
    };
    std::iter::once(line(&head)).chain(rows.iter().map(line)).collect()
}

#[cfg(test)]
mod tests {
    use super::*;

    #[test]
    fn numbers_have_commas() {
        let cases = [(0u64, "0"), (999, "999"), (1_000, "1,000"), (262_144, "262,144"), (4_294_967_295, "4,294,967,295")];
        assert!(cases.iter().all(|&(number, text)| grouped(number) == text));
    }

    #[test]
    fn long_runs_lose_their_middle() {
        assert_eq!(short(&[0, 1, 2, 3], 4), "abcd");
        assert_eq!(short(&[0, 1, 2, 3, 4], 4), "ab...[1]...de");
        assert_eq!(short(&[0; 5_000], 3), "aa...[4,997]...a");
        assert_eq!(short(&[0, 1, 30, 3, 40], 2), "0...[3]...40");
        assert_eq!(short(&[], 0), "-");
    }

    #[test]
    fn strokes_stand_between_parts() {
        assert_eq!(drawn(&[&[0], &[1, 3], &[2]]), "a|bd|c");
        assert_eq!(drawn(&[&[], &[2], &[0]]), "|c|a");
        assert_eq!(drawn(&[&[0], &[27, 63], &[]]), "0|27.63|");
    }

    #[test]
    fn columns_are_as_wide_as_they_must_be() {
        let rows = [["1".to_string(), "left".to_string()], ["12".to_string(), "right".to_string()]];
        assert_eq!(table(["no", "side"], &rows), ["no  side", " 1  left", "12  right"]);
    }
}
