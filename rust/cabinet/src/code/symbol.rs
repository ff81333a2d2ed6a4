//! Symbols of either field: how files have them, and the library's calls over them.

use crate::code::field::Field;
use gesarumbo::{
    field257, Corrected, Kept, Layout, Numbers, Rack, Recovered, Refusal, Repaired, ScrubRecord,
    Scrubbed, Tray,
};
use std::ops::Range;

/// A symbol of one of the fields.
pub trait Symbol:
    Copy + Default + PartialEq + From<u8> + Into<u16> + Into<u32> + Send + Sync + 'static
{
    const FIELD: Field;
    /// How many bytes it has in files and images.
    const WIDTH: usize;
    const CALLS: Calls<Self>;

    /// Its bytes in files and images, low byte first.
    fn bytes(self) -> impl Iterator<Item = u8>;

    /// Whether it is one of the field.
    fn is_symbol(self) -> bool {
        let number: u32 = self.into();
        number < Self::FIELD.number()
    }

    /// The symbol of as many bytes as it has.
    fn of_bytes(bytes: &[u8]) -> Option<Self>;

    /// The tray and the symbols of a live image of this layout and volume.
    fn read_image(layout: Layout, volume: u32, image: &[u8]) -> Answer<(Tray, Vec<Self>)>;

    /// Symbols as files and images have them.
    fn to_bytes(symbols: &[Self]) -> Vec<u8> {
        symbols.iter().flat_map(|symbol| symbol.bytes()).collect()
    }

    /// The symbols of a file; none if there is a part of one at the end.
    fn from_bytes(bytes: &[u8]) -> Option<Vec<Self>> {
        bytes.chunks(Self::WIDTH).map(Self::of_bytes).collect()
    }
}

type Answer<T> = Result<T, Refusal>;

/// The library's calls that are the same in either field.
#[allow(clippy::type_complexity)] // they have as many parameters
pub struct Calls<S: 'static> {
    pub numbers: fn(Layout) -> Answer<Numbers>,
    pub store: fn(Layout, &[S], &mut [S]) -> Answer<()>,
    pub store_batch: fn(Layout, usize, &[S], &mut [S]) -> Answer<()>,
    pub recover: fn(Layout, &mut [S], &[Tray]) -> Answer<()>,
    pub recover_correcting: fn(Layout, &mut [S], &[Tray]) -> Answer<Recovered>,
    pub test_kept: fn(Layout, &[S], &[Tray]) -> Answer<Kept>,
    pub gather: fn(Layout, u32, &[u8], &mut [S], &mut [Tray]) -> Answer<usize>,
    pub gather_rack: fn(Layout, u32, Rack, &[Tray], &[u8], &mut [S]) -> Answer<()>,
    pub share: fn(Layout, Rack, Rack, &[S], &mut [S]) -> Answer<()>,
    pub share_many: fn(Layout, u32, Rack, Rack, &[S], &mut [S]) -> Answer<()>,
    pub repair_many:
        fn(Layout, &[Tray], &[Rack], &[S], &[S], &mut [S], u64, u64) -> Answer<Repaired>,
    pub repair_correcting: fn(Layout, Tray, &[Rack], &[S], &[S], &mut [S]) -> Answer<Corrected>,
    pub card: fn(Layout, Tray, &[Rack], u64, &mut [S]) -> Answer<()>,
    pub card_test: fn(Layout, Tray, &[Rack], &[S], u64) -> Answer<()>,
    pub card_repair: fn(Layout, Tray, &[Rack], &[S], &[S], &[S], &mut [S], u64) -> Answer<Repaired>,
    pub read_part:
        for<'a> fn(Layout, &'a [S], &'a [S], Tray, u64, Tray, Range<u32>) -> Answer<&'a [S]>,
    pub write_image: fn(Layout, Tray, u32, u32, &[S], &mut [u8]) -> Answer<()>,
    pub margin: fn(Layout, &[u8]) -> Answer<i32>,
    pub scrub: fn(Layout, &[S], &mut ScrubRecord, u64) -> Answer<Scrubbed>,
}

/// The calls of a module.
macro_rules! calls {
    ($module:ident) => {
        Calls {
            numbers: $module::numbers,
            store: $module::store,
            store_batch: $module::store_batch,
            recover: $module::recover,
            recover_correcting: $module::recover_correcting,
            test_kept: $module::test_kept,
            gather: $module::gather,
            gather_rack: $module::gather_rack,
            share: $module::share,
            share_many: $module::share_many,
            repair_many: $module::repair_many,
            repair_correcting: $module::repair_correcting,
            card: $module::card,
            card_test: $module::card_test,
            card_repair: $module::card_repair,
            read_part: $module::read_part,
            write_image: $module::write_image,
            margin: $module::margin,
            scrub: $module::scrub,
        }
    };
}

impl Symbol for u8 {
    const FIELD: Field = Field::Of256;
    const WIDTH: usize = 1;
    const CALLS: Calls<u8> = calls!(gesarumbo);

    fn bytes(self) -> impl Iterator<Item = u8> {
        std::iter::once(self)
    }

    fn of_bytes(bytes: &[u8]) -> Option<u8> {
        bytes.try_into().ok().map(u8::from_le_bytes)
    }

    fn read_image(layout: Layout, volume: u32, image: &[u8]) -> Answer<(Tray, Vec<u8>)> {
        let image = gesarumbo::read_image(layout, volume, image)?;
        Ok((image.tray, image.symbols.to_vec()))
    }
}

impl Symbol for u16 {
    const FIELD: Field = Field::Of257;
    const WIDTH: usize = 2;
    const CALLS: Calls<u16> = calls!(field257);

    fn bytes(self) -> impl Iterator<Item = u8> {
        self.to_le_bytes().into_iter()
    }

    fn of_bytes(bytes: &[u8]) -> Option<u16> {
        bytes.try_into().ok().map(u16::from_le_bytes)
    }

    fn read_image(layout: Layout, volume: u32, image: &[u8]) -> Answer<(Tray, Vec<u16>)> {
        let layers = field257::numbers(layout)?.layers;
        let mut symbols = vec![0; layers];
        let tray = field257::read_image(layout, volume, image, &mut symbols)?;
        Ok((tray, symbols))
    }
}

/// The bytes of data that symbols are; the place of the first that is no byte, if one is not.
pub fn to_data<S: Symbol>(symbols: &[S]) -> Result<Vec<u8>, usize> {
    let number = |symbol: &S| -> u16 { (*symbol).into() };
    let bytes = symbols.iter().map(|symbol| u8::try_from(number(symbol)));
    bytes
        .enumerate()
        .map(|(place, byte)| byte.map_err(|_| place))
        .collect()
}

/// Whether all symbols are zero, as those after the data are.
pub fn is_zero<S: Symbol>(symbols: &[S]) -> bool {
    symbols.iter().all(|symbol| *symbol == S::default())
}

/// Bytes of data as symbols.
pub fn from_data<S: Symbol>(data: &[u8]) -> Vec<S> {
    data.iter().map(|byte| S::from(*byte)).collect()
}

#[cfg(test)]
mod tests {
    use super::{from_data, to_data, Symbol};

    #[test]
    fn symbols_in_files() {
        assert_eq!(u8::to_bytes(&[1, 255]), [1, 255]);
        assert_eq!(u16::to_bytes(&[1, 256]), [1, 0, 0, 1]);
        assert_eq!(u16::from_bytes(&[1, 0, 0, 1]), Some(vec![1, 256]));
        assert_eq!(u16::from_bytes(&[1, 0, 0]), None);
        assert_eq!(u16::from_bytes(&[]), Some(Vec::new()));
    }

    #[test]
    fn data_are_bytes() {
        assert_eq!(from_data::<u16>(&[0, 255]), [0, 255]);
        assert_eq!(to_data::<u16>(&[0, 255]), Ok(vec![0, 255]));
        assert_eq!(to_data::<u16>(&[0, 256, 256]), Err(1));
        assert_eq!(to_data::<u8>(&[7]), Ok(vec![7]));
    }
}
