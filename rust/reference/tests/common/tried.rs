//! What each field is tried with.

use super::Dice;
use reference::{Field, Field256, Field257};

/// A field with layouts to try it with, which have the same numbers B, d, s, L
/// and u − v in both fields where one stands for both.
pub trait Tried: Field {
    /// Layouts with more than one layer a group, of every shape that matters:
    /// racks of one, of several, k no multiple of u, racks that neither host nor
    /// help.
    const SHAPES: [[u32; 4]; 6];
    /// Layouts for e lost trays of one rack: e up to u; up to less; the same
    /// with a rack that neither hosts nor helps; of a larger rack; of the least.
    const SHAPES_OF_MANY: [[u32; 4]; 5];
    /// Layouts with one layer, and with large racks.
    const LARGE_RACKS: [[u32; 4]; 4];
    /// A large cabinet of L 1,024 with s = 2 in which e can be 2.
    const LARGE_CABINET: [u32; 4];
    /// B 5, d 3, L 32, e at most 2, one rack that neither hosts nor helps.
    const SHAPE: [u32; 4];
    /// B 4, d 3, L 16, e at least 2.
    const SMALL_SHAPE: [u32; 4];
    /// The same but for e at most 1, and with d = B, which no call takes.
    const ONE_LOST: [u32; 4];
    const INADMISSIBLE: [u32; 4];
    /// Layouts with E = 1: one layer and several, s = 2 and 3, k no multiple of u,
    /// racks that neither host nor help.
    const WARY_SHAPES: [[u32; 5]; 6];
    /// B 6, d 4, L 64, E 1, one rack that neither hosts nor helps.
    const WARY: [u32; 5];
    /// Other layouts that no call takes.
    const BAD_LAYOUTS: &'static [[u32; 4]];
    /// Numbers that can be lent and are no symbols.
    const LARGE: &'static [Self::Symbol];

    fn draw(dice: &mut Dice) -> Self::Symbol;
}

impl Tried for Field256 {
    const SHAPES: [[u32; 4]; 6] = [
        [3, 1, 1, 2],
        [4, 1, 1, 2],
        [3, 3, 4, 2],
        [4, 3, 8, 3],
        [4, 3, 5, 2],
        [5, 3, 4, 3],
    ];
    const SHAPES_OF_MANY: [[u32; 4]; 5] = [
        [4, 3, 6, 3],
        [4, 3, 7, 3],
        [5, 3, 7, 3],
        [3, 5, 7, 2],
        [4, 1, 1, 2],
    ];
    const LARGE_RACKS: [[u32; 4]; 4] = [
        [2, 17, 17, 1],
        [3, 17, 20, 2],
        [3, 15, 15, 2],
        [4, 15, 23, 3],
    ];
    const LARGE_CABINET: [u32; 4] = [10, 3, 24, 9];
    const SHAPE: [u32; 4] = [5, 3, 7, 3];
    const SMALL_SHAPE: [u32; 4] = [4, 3, 7, 3];
    const ONE_LOST: [u32; 4] = [4, 3, 8, 3];
    const INADMISSIBLE: [u32; 4] = [4, 3, 7, 4];
    const WARY_SHAPES: [[u32; 5]; 6] = [
        [4, 1, 1, 3, 1],
        [5, 3, 7, 4, 1],
        [5, 1, 1, 4, 1],
        [5, 3, 4, 4, 1],
        [6, 3, 5, 4, 1],
        [6, 1, 1, 5, 1],
    ];
    const WARY: [u32; 5] = [6, 3, 5, 4, 1];
    const BAD_LAYOUTS: &'static [[u32; 4]] = &[
        [0; 4],
        [4, 0, 7, 3],
        [u32::MAX; 4],
        [13, 3, 33, 12],
        [4, 3, 7, 1],
    ];
    const LARGE: &'static [u8] = &[];

    fn draw(dice: &mut Dice) -> u8 {
        dice.byte()
    }
}

impl Tried for Field257 {
    const SHAPES: [[u32; 4]; 6] = [
        [3, 1, 1, 2],
        [4, 1, 1, 2],
        [3, 2, 3, 2],
        [4, 4, 11, 3],
        [4, 4, 7, 2],
        [5, 2, 3, 3],
    ];
    const SHAPES_OF_MANY: [[u32; 4]; 5] = [
        [4, 4, 8, 3],
        [4, 4, 9, 3],
        [5, 4, 10, 3],
        [3, 8, 13, 2],
        [4, 1, 1, 2],
    ];
    const LARGE_RACKS: [[u32; 4]; 4] =
        [[2, 16, 16, 1], [3, 16, 20, 2], [3, 8, 8, 2], [3, 16, 23, 2]];
    const LARGE_CABINET: [u32; 4] = [10, 4, 32, 9];
    const SHAPE: [u32; 4] = [5, 4, 10, 3];
    const SMALL_SHAPE: [u32; 4] = [4, 4, 9, 3];
    const ONE_LOST: [u32; 4] = [4, 4, 11, 3];
    const INADMISSIBLE: [u32; 4] = [4, 4, 9, 4];
    const WARY_SHAPES: [[u32; 5]; 6] = [
        [4, 1, 1, 3, 1],
        [5, 4, 9, 4, 1],
        [5, 2, 3, 4, 1],
        [5, 4, 6, 4, 1],
        [6, 4, 7, 4, 1],
        [6, 1, 1, 5, 1],
    ];
    const WARY: [u32; 5] = [6, 4, 7, 4, 1];
    const BAD_LAYOUTS: &'static [[u32; 4]] = &[
        [0; 4],
        [4, 0, 9, 3],
        [u32::MAX; 4],
        [13, 4, 44, 12],
        [4, 4, 9, 1],
        [4, 3, 7, 3],
    ];
    const LARGE: &'static [u16] = &[257, 258, 513, 0x8000, 0xFF00, 0xFFFF];

    fn draw(dice: &mut Dice) -> u16 {
        dice.below(257) as u16
    }
}
