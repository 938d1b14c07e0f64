//! Numbers and lists as sentences have them.

/// `16,384` for 16384.
pub fn grouped(number: usize) -> String {
    let digits = number.to_string();
    let mut text = String::new();
    for (i, digit) in digits.chars().enumerate() {
        if i > 0 && (digits.len() - i).is_multiple_of(3) {
            text.push(',');
        }
        text.push(digit);
    }
    text
}

/// `1 step`, `12 steps`.
pub fn counted(number: usize, one: &str, many: &str) -> String {
    format!("{} {}", grouped(number), if number == 1 { one } else { many })
}

/// `step 1,001`
pub fn step(number: u16) -> String {
    format!("step {}", grouped(usize::from(number)))
}

/// `steps 9 to 1,001`, or `step 9` from 9 to 9.
pub fn steps(from: u16, to: u16) -> String {
    if from == to { step(from) } else { format!("steps {} to {}", grouped(usize::from(from)), grouped(usize::from(to))) }
}

/// `2`, `2 and 3`, `2, 3 and 4`.
pub fn list(parts: &[String]) -> String {
    joined(parts, "and")
}

/// `2`, `2 or 3`, `2, 3 or 4`.
pub fn either(parts: &[String]) -> String {
    joined(parts, "or")
}

fn joined(parts: &[String], word: &str) -> String {
    match parts {
        [] => String::new(),
        [one] => one.clone(),
        [start @ .., last] => format!("{} {word} {last}", start.join(", ")),
    }
}

/// A sentence begins with a capital.
pub fn sentence(text: &str) -> String {
    let mut chars = text.chars();
    chars.next().map_or(String::new(), |first| first.to_uppercase().chain(chars).collect())
}

#[cfg(test)]
mod tests {
    use super::*;

    #[test]
    fn numbers_are_grouped_by_three() {
        assert_eq!([0, 999, 1_000, 16_384, 1_000_000].map(grouped), ["0", "999", "1,000", "16,384", "1,000,000"]);
    }

    #[test]
    fn steps_in_words() {
        assert_eq!([steps(9, 9), steps(9, 10), steps(999, 1_001)], ["step 9", "steps 9 to 10", "steps 999 to 1,001"]);
    }

    #[test]
    fn the_last_of_a_list_has_an_and_or_an_or() {
        let parts = ["2", "3", "4"].map(String::from);
        assert_eq!([list(&parts[..0]), list(&parts[..1]), list(&parts[..2]), list(&parts)], ["", "2", "2 and 3", "2, 3 and 4"]);
        assert_eq!([either(&parts[..1]), either(&parts[..2]), either(&parts)], ["2", "2 or 3", "2, 3 or 4"]);
    }
}
