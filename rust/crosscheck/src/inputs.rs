//! The inputs of a call, as the vector format writes them.

use crate::field::{symbols, Field, Symbol};
use crate::lent::{Guarded, Lent};
use std::fmt;

/// What an input is.
#[derive(Clone, Copy, Debug, PartialEq, Eq)]
pub enum Kind {
    Layout,
    /// A number of 32 bits.
    Small,
    /// A number of 64 bits.
    Wide,
    List,
    /// The three numbers of a walk's record.
    Record,
    Bytes,
    /// Numbers lent as symbols of the field.
    Symbols,
}

#[derive(Clone, Debug, PartialEq, Eq)]
pub enum Value {
    Layout([u32; 5]),
    Small(u32),
    Wide(u64),
    List(Vec<u32>),
    Record([u32; 3]),
    Bytes(Vec<u8>),
    Symbols(Vec<Symbol>),
}

/// A call's inputs in their order, and the field it is over. Asking for another
/// kind than an input has is a mistake of the call's own file, and panics.
#[derive(Clone, Debug, PartialEq, Eq)]
pub struct Inputs {
    pub field: Field,
    pub values: Vec<Value>,
}

impl Inputs {
    pub fn layout(&self) -> [u32; 5] {
        match self.values[0] {
            Value::Layout(numbers) => numbers,
            _ => panic!("the first input is not a layout"),
        }
    }

    /// The layout's number E, 0 for a call that has no layout.
    pub fn errors(&self) -> u32 {
        match self.values.first() {
            Some(Value::Layout([.., errors])) => *errors,
            _ => 0,
        }
    }

    pub fn small(&self, at: usize) -> u32 {
        match self.values[at] {
            Value::Small(number) => number,
            _ => panic!("input {at} is not a number of 32 bits"),
        }
    }

    pub fn wide(&self, at: usize) -> u64 {
        match self.values[at] {
            Value::Wide(number) => number,
            _ => panic!("input {at} is not a number of 64 bits"),
        }
    }

    pub fn list(&self, at: usize) -> &[u32] {
        match &self.values[at] {
            Value::List(list) => list,
            _ => panic!("input {at} is not a list"),
        }
    }

    pub fn record(&self, at: usize) -> [u32; 3] {
        match self.values[at] {
            Value::Record(record) => record,
            _ => panic!("input {at} is not a record"),
        }
    }

    pub fn bytes(&self, at: usize) -> &[u8] {
        match &self.values[at] {
            Value::Bytes(bytes) => bytes,
            _ => panic!("input {at} is not a buffer of bytes"),
        }
    }

    pub fn symbols(&self, at: usize) -> &[Symbol] {
        match &self.values[at] {
            Value::Symbols(symbols) => symbols,
            _ => panic!("input {at} is not a buffer of symbols"),
        }
    }

    /// Symbols as the second program takes them.
    pub fn given<F: reference::Field>(&self, at: usize) -> Vec<F::Symbol> {
        symbols::<F>(self.symbols(at))
    }

    /// Symbols as they are lent to the library.
    pub fn lent<F: reference::Field<Symbol: Guarded>>(&self, at: usize) -> Lent<F::Symbol> {
        Lent::symbols::<F>(self.symbols(at))
    }

    /// The inputs of a shape from their words.
    pub fn parse(field: Field, shape: &[Kind], words: &[&str]) -> Result<Inputs, String> {
        if words.len() != shape.len() {
            return Err(format!(
                "{} inputs where {} are due",
                words.len(),
                shape.len()
            ));
        }
        let parse = |(kind, word): (&Kind, &&str)| {
            parse_value(field, *kind, word).ok_or(format!("{word} is no {kind:?}"))
        };
        let values = shape.iter().zip(words).map(parse);
        Ok(Inputs {
            field,
            values: values.collect::<Result<_, _>>()?,
        })
    }
}

fn parse_value(field: Field, kind: Kind, word: &str) -> Option<Value> {
    match kind {
        Kind::Layout => parse_layout(word).map(Value::Layout),
        Kind::Small => word.parse().ok().map(Value::Small),
        Kind::Wide => word.parse().ok().map(Value::Wide),
        Kind::List => parse_list(word).map(Value::List),
        Kind::Record => parse_list(word)?.try_into().ok().map(Value::Record),
        Kind::Bytes => parse_hex(2, word.strip_prefix('x')?).map(|numbers| {
            let byte = |number| u8::try_from(number).expect("two digits");
            Value::Bytes(numbers.into_iter().map(byte).collect())
        }),
        Kind::Symbols => {
            let (mark, digits) = mark_and_digits(field);
            parse_hex(digits, word.strip_prefix(mark)?).map(Value::Symbols)
        }
    }
}

/// Five numbers; the fifth is left out where it is zero.
fn parse_layout(word: &str) -> Option<[u32; 5]> {
    let mut numbers = parse_numbers(word)?;
    if numbers.len() == 4 {
        numbers.push(0);
    }
    numbers.try_into().ok()
}

fn layout_word(numbers: &[u32; 5]) -> String {
    match numbers {
        [four @ .., 0] => comma_list(four),
        five => comma_list(five),
    }
}

fn parse_list(word: &str) -> Option<Vec<u32>> {
    parse_numbers(word.strip_prefix('[')?.strip_suffix(']')?)
}

fn parse_numbers(word: &str) -> Option<Vec<u32>> {
    if word.is_empty() {
        return Some(vec![]);
    }
    word.split(',').map(|number| number.parse().ok()).collect()
}

/// Numbers of so many hex digits each.
fn parse_hex(digits: usize, word: &str) -> Option<Vec<u16>> {
    let number = |digits: &[u8]| {
        let text = std::str::from_utf8(digits).ok()?;
        let all_digits = text.bytes().all(|digit| digit.is_ascii_hexdigit());
        all_digits.then(|| u16::from_str_radix(text, 16).ok())?
    };
    let whole = word.len().is_multiple_of(digits);
    whole.then(|| word.as_bytes().chunks(digits).map(number).collect())?
}

/// What stands before a field's symbols, and the digits of each.
fn mark_and_digits(field: Field) -> (char, usize) {
    match field {
        Field::Of256 => ('x', 2),
        Field::Of257 => ('w', 4),
    }
}

impl fmt::Display for Inputs {
    fn fmt(&self, f: &mut fmt::Formatter) -> fmt::Result {
        let words = self.values.iter().map(|value| value.word(self.field));
        f.write_str(&words.collect::<Vec<String>>().join(" "))
    }
}

impl Value {
    /// The value as the format writes it.
    fn word(&self, field: Field) -> String {
        match self {
            Value::Layout(numbers) => layout_word(numbers),
            Value::Small(number) => number.to_string(),
            Value::Wide(number) => number.to_string(),
            Value::List(list) => list_word(list),
            Value::Record(record) => list_word(record),
            Value::Bytes(bytes) => byte_word(bytes),
            Value::Symbols(symbols) => symbol_word(field, symbols),
        }
    }
}

fn comma_list(numbers: &[u32]) -> String {
    numbers
        .iter()
        .map(u32::to_string)
        .collect::<Vec<String>>()
        .join(",")
}

/// A list as the format writes it.
pub fn list_word(numbers: &[u32]) -> String {
    format!("[{}]", comma_list(numbers))
}

/// Bytes as the format writes them.
pub fn byte_word(bytes: &[u8]) -> String {
    hex('x', 2, bytes.iter().map(|&byte| u16::from(byte)))
}

/// Symbols as the format writes them.
pub fn symbol_word(field: Field, symbols: &[Symbol]) -> String {
    let (mark, digits) = mark_and_digits(field);
    hex(mark, digits, symbols.iter().copied())
}

/// A mark, and numbers of so many hex digits each.
fn hex(mark: char, digits: usize, numbers: impl Iterator<Item = u16>) -> String {
    let shifts = (0..digits).rev().map(|digit| 4 * digit);
    let digits_of = |number: u16| shifts.clone().map(move |shift| number >> shift & 15);
    let digit = |value: u16| char::from_digit(u32::from(value), 16).expect("four bits");
    let written = numbers.flat_map(digits_of).map(digit);
    std::iter::once(mark).chain(written).collect()
}

#[cfg(test)]
mod tests {
    use super::*;

    const SHAPE: [Kind; 6] = [
        Kind::Layout,
        Kind::Small,
        Kind::Wide,
        Kind::List,
        Kind::Bytes,
        Kind::Symbols,
    ];

    #[test]
    fn what_is_parsed_is_printed() {
        for (field, symbols, none) in [
            (Field::Of256, "x0aff", "x"),
            (Field::Of257, "w000a0100", "w"),
        ] {
            let words = [
                "4,3,8,3",
                "4294967295",
                "18446744073709551615",
                "[1,2]",
                "x0aff",
                symbols,
            ];
            let inputs = Inputs::parse(field, &SHAPE, &words).unwrap();
            assert_eq!(inputs.to_string(), words.join(" "));
            let words = ["4,3,8,3", "0", "0", "[]", "x", none];
            let inputs = Inputs::parse(field, &SHAPE, &words).unwrap();
            assert_eq!(inputs.to_string(), words.join(" "));
        }
    }

    #[test]
    fn symbols_are_the_fields() {
        let parse = |field, word| Inputs::parse(field, &[Kind::Symbols], &[word]);
        let of_256 = parse(Field::Of256, "x0aff").unwrap();
        assert_eq!(of_256.symbols(0), [10, 255]);
        let of_257 = parse(Field::Of257, "w0100ffff").unwrap();
        assert_eq!(of_257.symbols(0), [256, 65535]);
        assert!(parse(Field::Of256, "w000a").is_err());
        for word in ["x000a", "w00", "w000g", "w+001"] {
            assert!(parse(Field::Of257, word).is_err());
        }
    }

    #[test]
    fn a_fifth_layout_number_may_be_left_out() {
        let parse = |word| Inputs::parse(Field::Of256, &SHAPE[..1], &[word]);
        for (word, layout) in [
            ("4,3,8,3", [4, 3, 8, 3, 0]),
            ("6,3,5,4,1", [6, 3, 5, 4, 1]),
            ("6,3,5,4,4294967295", [6, 3, 5, 4, u32::MAX]),
        ] {
            let parsed = parse(word).unwrap();
            assert_eq!((parsed.layout(), parsed.errors()), (layout, layout[4]));
            assert_eq!(parsed.to_string(), word);
        }
        assert_eq!(parse("4,3,8,3,0").unwrap(), parse("4,3,8,3").unwrap());
        assert!(["4,3,8", "4,3,8,3,0,0", "4,3,8,4294967296", "4,3,8,3,"]
            .iter()
            .all(|word| parse(word).is_err()));
    }

    #[test]
    fn a_record_has_three_numbers() {
        let parse = |word| Inputs::parse(Field::Of257, &[Kind::Record], &[word]);
        let parsed = parse("[1,0,4294967295]").unwrap();
        assert_eq!(parsed.record(0), [1, 0, u32::MAX]);
        assert_eq!(parsed.to_string(), "[1,0,4294967295]");
        assert!(["[]", "[1,2]", "[1,2,3,4]", "1,2,3"]
            .iter()
            .all(|word| parse(word).is_err()));
    }

    #[test]
    fn half_a_byte_is_no_buffer() {
        let parse = |words: &[&str]| Inputs::parse(Field::Of257, &[Kind::Bytes], words);
        assert!(parse(&["x0a"]).is_ok());
        assert!(parse(&["x0af"]).is_err());
        assert!(parse(&["x0g"]).is_err());
        assert!(parse(&[]).is_err());
    }
}
