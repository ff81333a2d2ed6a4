//! A helper rack's share in a repair of the box.

use super::ffi;
use crate::{Rack, Refusal};

/// Works out the symbol that a helper rack sends for the repair of a tray of the host rack.
///
/// `rack` is the helper's four values. Done: the byte of `share` is written, whatever it held: the
/// top coefficient, that of x³, of the polynomial of degree below 4 through the four values. Of a
/// word all four racks have the same. Refused: `share` is as it was.
///
/// Refused, in this order: [`Refusal::Length`] where `rack` has not 4 bytes or `share` not one;
/// [`Refusal::Number`] where a rack is not below 4 or a value above 15; [`Refusal::Host`] where the
/// two racks are the same.
///
/// ```
/// use gesarumbo::{sixteen, Rack, Refusal};
///
/// // The values of x^3 at the points of rack 0.
/// let mut sent = [0; 1];
/// sixteen::share(Rack::new(1), Rack::new(0), &[0, 1, 1, 1], &mut sent)?;
/// assert_eq!(sent, [1]);
/// let refused = sixteen::share(Rack::new(0), Rack::new(0), &[0, 1, 1, 1], &mut sent);
/// assert_eq!(refused, Err(Refusal::Host));
/// # Ok::<(), Refusal>(())
/// ```
pub fn share(host: Rack, helper: Rack, rack: &[u8], share: &mut [u8]) -> Result<(), Refusal> {
    Refusal::unless_done(ffi::share(host, helper, rack, share), ())
}
