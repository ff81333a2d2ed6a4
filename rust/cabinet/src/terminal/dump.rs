//! Symbols as people read them: a layer's number, some symbols in hex, and the same as text.

use crate::code::field::Field;
use crate::code::symbol::Symbol;

/// Columns of a line for hex.
const HEX: usize = 47;

/// The lines of the symbols from this layer on.
pub fn lines<S: Symbol>(first: u32, symbols: &[S]) -> Vec<String> {
    let digits = match S::FIELD {
        Field::Of256 => 2,
        Field::Of257 => 3,
    };
    let in_row = (HEX + 1) / (digits + 1);
    let starts = (u64::from(first)..).step_by(in_row);
    let rows = starts.zip(symbols.chunks(in_row));
    rows.map(|(layer, row)| {
        let numbers = || row.iter().map(|symbol| (*symbol).into());
        let hex: Vec<String> = numbers()
            .map(|symbol: u16| format!("{symbol:0digits$X}"))
            .collect();
        let text: String = numbers().map(printable).collect();
        format!("  {layer:>4}  {:<HEX$}  {text}", hex.join(" "))
    })
    .collect()
}

fn printable(symbol: u16) -> char {
    match u8::try_from(symbol) {
        Ok(byte @ b' '..=b'~') => char::from(byte),
        _ => '.',
    }
}

#[cfg(test)]
mod tests {
    use super::lines;

    #[test]
    fn symbols_in_lines() {
        assert!(lines::<u8>(5, b"").is_empty());
        let text = lines(9, b"Mo 06:00 Cl 0.6\n\xA7~");
        assert_eq!(
            text,
            [
                "     9  4D 6F 20 30 36 3A 30 30 20 43 6C 20 30 2E 36 0A  Mo 06:00 Cl 0.6.",
                "    25  A7 7E                                            .~",
            ]
        );
    }

    #[test]
    fn symbols_modulo_257_in_lines() {
        let symbols: Vec<u16> = b"Mo 06:00 Cl 0.6"
            .iter()
            .map(|byte| u16::from(*byte))
            .collect();
        let mut text = lines(9, &symbols);
        text.extend(lines::<u16>(4095, &[256, 167]));
        assert_eq!(
            text,
            [
                "     9  04D 06F 020 030 036 03A 030 030 020 043 06C 020  Mo 06:00 Cl ",
                "    21  030 02E 036                                      0.6",
                "  4095  100 0A7                                          ..",
            ]
        );
    }
}
