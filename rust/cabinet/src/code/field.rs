//! The two fields that a cabinet's symbols can be of.

use crate::code::symbol::Symbol;
use crate::failure::Failure;
use crate::terminal::arguments::{Arguments, Setting};
use gesarumbo::{Layout, Numbers, Refusal};

pub const FIELD: Setting = Setting::with(
    "--field",
    "N",
    "the field of the symbols: 256 (bytes) if not given, or 257, for racks of 2, 4, 8 or 16 trays",
);

/// A field, by how many symbols it has.
#[derive(Clone, Copy, PartialEq, Eq, Debug, Default)]
pub enum Field {
    /// Bytes.
    #[default]
    Of256,
    /// The whole numbers modulo 257.
    Of257,
}

/// Does a function that is generic over the symbol, in a field.
macro_rules! in_field {
    ($field:expr, $function:ident($($argument:expr),*)) => {
        match $field {
            $crate::code::field::Field::Of256 => $function::<u8>($($argument),*),
            $crate::code::field::Field::Of257 => $function::<u16>($($argument),*),
        }
    };
}
pub(crate) use in_field;

impl Field {
    const ALL: [Field; 2] = [Field::Of256, Field::Of257];

    /// How many symbols it has.
    pub fn number(self) -> u32 {
        match self {
            Field::Of256 => 256,
            Field::Of257 => 257,
        }
    }

    /// The field with so many symbols.
    pub fn with(number: u32) -> Option<Field> {
        Field::ALL
            .into_iter()
            .find(|field| field.number() == number)
    }

    /// The edition of its tray images.
    pub fn edition(self) -> u8 {
        match self {
            Field::Of256 => 1,
            Field::Of257 => 2,
        }
    }

    /// The field whose tray images have this edition.
    pub fn with_edition(edition: u8) -> Option<Field> {
        Field::ALL
            .into_iter()
            .find(|field| field.edition() == edition)
    }

    /// How many bytes a symbol has in images.
    pub fn width(self) -> usize {
        in_field!(self, width())
    }

    /// What is counted where symbols are.
    pub fn unit(self) -> &'static str {
        match self {
            Field::Of256 => "byte",
            Field::Of257 => "symbol",
        }
    }

    /// A layout of this field in words; of bytes, if nothing is said.
    pub fn named(self, layout: Layout) -> String {
        match self {
            Field::Of256 => layout.to_string(),
            Field::Of257 => format!("{layout} modulo 257"),
        }
    }

    /// The library's numbers of a layout in this field.
    pub fn numbers(self, layout: Layout) -> Result<Numbers, Refusal> {
        in_field!(self, numbers(layout))
    }

    /// The field that is asked for, if any is.
    pub fn asked(arguments: &Arguments) -> Result<Option<Field>, Failure> {
        let number = arguments.number(FIELD)?;
        let unknown = || Failure::Usage(format!("{} is 256 or 257", FIELD.name));
        number
            .map(|number| Field::with(number).ok_or_else(unknown))
            .transpose()
    }
}

fn width<S: Symbol>() -> usize {
    S::WIDTH
}

fn numbers<S: Symbol>(layout: Layout) -> Result<Numbers, Refusal> {
    (S::CALLS.numbers)(layout)
}
