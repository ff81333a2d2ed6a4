//! The two fields, and how a call goes to the one of its inputs.

use reference::Field as _;

#[derive(Clone, Copy, Debug, PartialEq, Eq, PartialOrd, Ord)]
pub enum Field {
    /// The field of 256, symbols of one byte.
    Of256,
    /// The numbers modulo 257, symbols of 16 bits.
    Of257,
}

pub const FIELDS: [Field; 2] = [Field::Of256, Field::Of257];

/// A symbol of either field, or another number that can be lent as one.
pub type Symbol = u16;

/// An expression made for each field apart and worked out in the one named, with
/// `library` for the library's calls over it and `F` for the second program's
/// field.
macro_rules! in_field {
    ($field:expr, $worked_out:expr) => {
        match $field {
            $crate::field::Field::Of256 => {
                #[allow(unused_imports)]
                use gesarumbo as library;
                #[allow(dead_code)]
                type F = reference::Field256;
                $worked_out
            }
            $crate::field::Field::Of257 => {
                #[allow(unused_imports)]
                use gesarumbo::field257 as library;
                #[allow(dead_code)]
                type F = reference::Field257;
                $worked_out
            }
        }
    };
}
pub(crate) use in_field;

impl Field {
    /// The number of its symbols, which are all numbers below.
    pub fn symbols(self) -> usize {
        in_field!(self, F::ORDER + 1)
    }

    /// The rack sizes that can be had.
    pub fn rack_sizes(self) -> [u32; 5] {
        in_field!(self, F::RACK_SIZES)
    }

    /// The bytes of a symbol in an image.
    pub fn bytes(self) -> usize {
        in_field!(self, F::BYTES)
    }

    pub fn add(self, a: Symbol, b: Symbol) -> Symbol {
        in_field!(self, Symbol::from(F::add(symbol::<F>(a), symbol::<F>(b))))
    }

    pub fn multiply(self, a: Symbol, b: Symbol) -> Symbol {
        in_field!(
            self,
            Symbol::from(F::multiply(symbol::<F>(a), symbol::<F>(b)))
        )
    }
}

/// A number as a field's symbols are lent.
pub fn symbol<F: reference::Field>(number: Symbol) -> F::Symbol {
    number.try_into().expect("a number that can be lent")
}

pub fn symbols<F: reference::Field>(numbers: &[Symbol]) -> Vec<F::Symbol> {
    numbers.iter().map(|&number| symbol::<F>(number)).collect()
}

pub fn numbers<S: Copy + Into<Symbol>>(symbols: &[S]) -> Vec<Symbol> {
    symbols.iter().map(|&symbol| symbol.into()).collect()
}

#[cfg(test)]
mod tests {
    use super::*;

    #[test]
    fn each_field_has_its_own() {
        assert_eq!(FIELDS.map(Field::symbols), [256, 257]);
        assert_eq!(FIELDS.map(Field::bytes), [1, 2]);
        assert_eq!(FIELDS.map(|field| field.rack_sizes()[1]), [3, 2]);
        assert_eq!(FIELDS.map(|field| field.add(3, 255)), [252, 1]);
        assert_eq!(FIELDS.map(|field| field.multiply(2, 200)), [141, 143]);
    }
}
