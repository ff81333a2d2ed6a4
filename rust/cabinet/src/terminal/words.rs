//! Numbers and words as people read them.

use gesarumbo::Tray;

/// Columns of a terminal.
const WIDTH: usize = 80;

/// A number of things, in words.
pub fn count(number: usize, thing: &str) -> String {
    match number {
        1 => format!("1 {thing}"),
        _ => format!("{} {thing}s", grouped(number)),
    }
}

/// Trays by their numbers, tray 4 or trays 3, 4.
pub fn trays(trays: &[Tray]) -> String {
    let numbers: Vec<String> = trays.iter().map(Tray::to_string).collect();
    let thing = if trays.len() == 1 { "tray" } else { "trays" };
    format!("{thing} {}", numbers.join(", "))
}

/// A number as people read it, 24576 as 24,576.
pub fn grouped(number: usize) -> String {
    let digits = number.to_string();
    let mut text = String::new();
    for (place, digit) in digits.chars().enumerate() {
        if place > 0 && (digits.len() - place).is_multiple_of(3) {
            text.push(',');
        }
        text.push(digit);
    }
    text
}

/// Words in lines of so many letters or fewer, but for longer words.
pub fn lines(words: &str, letters: usize) -> Vec<String> {
    let mut lines = vec![String::new()];
    for word in words.split(' ') {
        let last = lines.len() - 1;
        let line = &mut lines[last];
        let is_full = line.chars().count() + 1 + word.chars().count() > letters;
        match line.is_empty() {
            true => line.push_str(word),
            false if is_full => lines.push(word.to_string()),
            false => {
                line.push(' ');
                line.push_str(word);
            }
        }
    }
    lines
}

/// Words after a head, in lines that a terminal shows whole; further lines begin under the first
/// word.
pub fn hanging(head: &str, words: &str) -> String {
    let indent = head.chars().count();
    let mut text = head.to_string();
    let mut column = indent;
    for (place, word) in words.split(' ').enumerate() {
        let width = word.chars().count();
        if place > 0 && column + 1 + width > WIDTH {
            text.push('\n');
            text.push_str(&" ".repeat(indent));
            column = indent;
        } else if place > 0 {
            text.push(' ');
            column += 1;
        }
        text.push_str(word);
        column += width;
    }
    text
}

#[cfg(test)]
mod tests {
    use super::{count, grouped, hanging, trays};
    use gesarumbo::Tray;

    #[test]
    fn long_words_hang() {
        assert_eq!(hanging("  a  ", "b c"), "  a  b c");
        let long = "word ".repeat(20);
        let text = hanging("head ", long.trim_end());
        let lines: Vec<&str> = text.lines().collect();
        assert_eq!(lines[0], format!("head {}", "word ".repeat(15).trim_end()));
        assert_eq!(lines[1], format!("     {}", "word ".repeat(5).trim_end()));
    }

    #[test]
    fn trays_in_words() {
        assert_eq!(trays(&[Tray::new(4)]), "tray 4");
        assert_eq!(trays(&[3, 4, 5].map(Tray::new)), "trays 3, 4, 5");
    }

    #[test]
    fn numbers_in_words() {
        assert_eq!(grouped(0), "0");
        assert_eq!(grouped(999), "999");
        assert_eq!(grouped(24_576), "24,576");
        assert_eq!(grouped(1_048_576), "1,048,576");
        assert_eq!(count(1, "rack"), "1 rack");
        assert_eq!(count(1_024, "symbol"), "1,024 symbols");
    }
}
