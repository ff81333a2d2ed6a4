//! The sixteen-tray box: a cabinet of its own, with one symbol a tray and no layout.
//!
//! It has 16 trays in four racks of four: tray x stands in rack x/4, at place x mod 4. A symbol is a
//! number 0 to 15, an element of the field of 16 by x⁴ + x + 1 with root y = 2; sums are exclusive
//! or. The data are the 7 coefficients of a polynomial, the lowest first, and their word is the
//! polynomial's values at the trays' 16 points. Any 7 trays give back the word and the data. When one
//! tray is lost, two other racks each send one symbol.
//!
//! The racks are sorted by h(x) = x + x⁴, which is 0, 1, y⁵ and y¹⁰ at the points of the four:
//!
//! | Rack | Trays | Points |
//! |---|---|---|
//! | 0 | 0 to 3 | 0, 1, y⁵, y¹⁰ |
//! | 1 | 4 to 7 | y, y², y⁴, y⁸ |
//! | 2 | 8 to 11 | y⁶, y⁷, y⁹, y¹³ |
//! | 3 | 12 to 15 | y³, y¹¹, y¹², y¹⁴ |
//!
//! ```
//! use gesarumbo::{sixteen, Rack, Tray};
//!
//! let data = [1, 2, 3, 4, 5, 6, 7];
//! let mut values = [0; 16];
//! sixteen::store(&data, &mut values)?;
//!
//! // Tray 6 of rack 1 is lost: racks 0 and 3 send a symbol each.
//! let helpers = [0, 3].map(Rack::new);
//! let (mut shares, mut spare) = ([0; 2], [0; 1]);
//! sixteen::share(Rack::new(1), helpers[0], &values[..4], &mut shares[..1])?;
//! sixteen::share(Rack::new(1), helpers[1], &values[12..], &mut shares[1..])?;
//! let done = sixteen::repair(Tray::new(6), &helpers, &shares, &values[4..8], &mut spare)?;
//! assert_eq!((spare[0], done.crossed), (values[6], 2));
//!
//! // The trays do not hold the data as they are, but any seven give them.
//! let mut back = [0; 7];
//! sixteen::data(&values, &[0, 1, 2, 3, 4, 5, 6, 7, 8].map(Tray::new), &mut back)?;
//! assert_eq!(back, data);
//! # Ok::<(), gesarumbo::Refusal>(())
//! ```
//!
//! What every call keeps is what the [crate](crate#what-every-call-keeps) says. The grounds are those
//! of [`Refusal`](crate::Refusal) with 16 trays, 7 symbols of data and two helpers.
//! [`Refusal::Number`](crate::Refusal::Number) is also for a value above 15, unless it is never looked
//! at.

#[allow(unsafe_code)]
mod ffi;

mod data;
mod recover;
mod repair;
mod share;
mod store;

pub use data::data;
pub use recover::recover;
pub use repair::{repair, Repaired};
pub use share::share;
pub use store::store;
