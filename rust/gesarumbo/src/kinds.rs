//! Numbers of racks, trays and layers: three kinds that cannot be taken for one another.

use core::fmt;

/// One kind of number, with the two functions that make and open it.
macro_rules! kind {
    ($(#[$words:meta])* $name:ident) => {
        $(#[$words])*
        #[repr(transparent)]
        #[derive(Clone, Copy, Debug, PartialEq, Eq, PartialOrd, Ord, Hash)]
        pub struct $name(u32);

        impl $name {
            /// The one of this number, in the layout or not.
            pub const fn new(number: u32) -> $name {
                $name(number)
            }

            /// Its number.
            pub const fn number(self) -> u32 {
                self.0
            }
        }

        impl fmt::Display for $name {
            fn fmt(&self, f: &mut fmt::Formatter<'_>) -> fmt::Result {
                fmt::Display::fmt(&self.0, f)
            }
        }
    };
}

kind! {
    /// The number of a rack, 0 to B − 1 in a layout.
    ///
    /// It cannot be given where a tray is meant:
    /// ```compile_fail,E0308
    /// use gesarumbo::{Rack, Tray};
    ///
    /// let lost: Tray = Rack::new(1);
    /// ```
    Rack
}

kind! {
    /// The number of a tray, 0 to B·u − 1 in a layout: tray x stands in rack x/u (whole), at place
    /// x mod u.
    Tray
}

kind! {
    /// The number of a layer, 0 to L − 1 in a layout. The end of a run of layers, which may be L, is a
    /// plain number.
    Layer
}
