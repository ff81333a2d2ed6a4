//! The five numbers of a cabinet.

use core::fmt;

/// The five numbers of a cabinet, any 32-bit values; each call says whether they are admissible: as
/// the fields say, and with at most 4,096 layers, which are s^B for s = d − k/u (whole) + 1 − 2·E.
///
/// The number E is one of the code: what is stored with one E is not read with the other.
///
/// ```
/// use gesarumbo::{measure, Layout, Refusal};
///
/// assert_eq!(Layout::new(4, 3, 8, 3).to_string(), "(4, 3, 8, 3)");
/// assert_eq!(measure(Layout::new(13, 3, 33, 12)), Err(Refusal::Layout));
///
/// // One of four helpers may send a wrong share: the traffic is that of two helpers fewer.
/// let correcting = Layout::with_errors(5, 3, 4, 4, 1);
/// assert_eq!(correcting.to_string(), "(5, 3, 4, 4, 1)");
/// assert_eq!(measure(correcting)?.layers, 32);
/// assert_eq!(measure(Layout::with_errors(5, 3, 4, 4, 2)), Err(Refusal::Layout));
/// # Ok::<(), Refusal>(())
/// ```
#[repr(C)]
#[derive(Clone, Copy, Debug, PartialEq, Eq, Hash)]
pub struct Layout {
    /// B, the number of racks: at least 2.
    pub racks: u32,
    /// u, the trays of a rack: 1, 3, 5, 15 or 17 (1, 2, 4, 8 or 16 in
    /// [`field257`](crate::field257)), and B·u at most 60.
    pub size: u32,
    /// k, the trays' worth of data: from u to B·u − u.
    pub dimension: u32,
    /// d, the helper racks of a repair: from k/u (whole) + 2·E to B − 1.
    pub helpers: u32,
    /// E, how many helpers may send a wrong share: 0 or 1. With 1 a lost tray is repaired by
    /// [`repair_correcting`](crate::repair_correcting).
    pub errors: u32,
}

impl Layout {
    /// The layout of B racks of u trays with k trays' worth of data and d helper racks, admissible
    /// or not, with E = 0: every helper's share is taken as it comes.
    pub const fn new(racks: u32, size: u32, dimension: u32, helpers: u32) -> Layout {
        Layout::with_errors(racks, size, dimension, helpers, 0)
    }

    /// The same with E as given, admissible or not.
    pub const fn with_errors(
        racks: u32,
        size: u32,
        dimension: u32,
        helpers: u32,
        errors: u32,
    ) -> Layout {
        Layout {
            racks,
            size,
            dimension,
            helpers,
            errors,
        }
    }
}

/// The numbers in brackets; the fifth is left out where it is 0.
impl fmt::Display for Layout {
    fn fmt(&self, f: &mut fmt::Formatter<'_>) -> fmt::Result {
        write!(
            f,
            "({}, {}, {}, {}",
            self.racks, self.size, self.dimension, self.helpers
        )?;
        if self.errors != 0 {
            write!(f, ", {}", self.errors)?;
        }
        f.write_str(")")
    }
}
