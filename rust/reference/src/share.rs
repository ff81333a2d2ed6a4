//! A helper's shares, whole or tray by tray.

use crate::field::Field;
use crate::layout::{Layout, Numbers, Rack, Tray};
use crate::refusal::{refuse, Refusal};

/// What share m multiplies a tray at this place by: z to the power
/// g·m·(255/u), or 256/u, of which only the rest by the order matters.
pub fn weight<F: Field>(numbers: &Numbers, place: usize, m: usize) -> F::Symbol {
    let exponent = place * m * (F::ORDER / numbers.size);
    F::power(F::ROOT, exponent % F::ORDER)
}

/// What the L/s symbols lent for the share hold afterwards.
pub fn share<F: Field>(
    layout: Layout<F>,
    host: Rack,
    helper: Rack,
    rack: &[F::Symbol],
    share: &[F::Symbol],
) -> Result<Vec<F::Symbol>, Refusal> {
    shared::<F>(layout.numbers()?, 1, host, helper, rack, share)
}

/// What the L/s symbols lent hold afterwards: what they held, plus this tray's
/// part of its rack's share.
pub fn share_add<F: Field>(
    layout: Layout<F>,
    host: Rack,
    tray: Tray,
    symbols: &[F::Symbol],
    share: &[F::Symbol],
) -> Result<Vec<F::Symbol>, Refusal> {
    added::<F>(layout.numbers()?, 1, host, tray, symbols, share)
}

/// What the e·L/s symbols lent for the shares hold afterwards, m = 0 first. E is
/// 0, here and in the next call.
pub fn share_many<F: Field>(
    layout: Layout<F>,
    lost_count: u32,
    host: Rack,
    helper: Rack,
    rack: &[F::Symbol],
    share: &[F::Symbol],
) -> Result<Vec<F::Symbol>, Refusal> {
    let numbers = layout.numbers_with(0)?;
    shared::<F>(numbers, lost_count, host, helper, rack, share)
}

/// What the e·L/s symbols lent hold afterwards: what they held, plus this tray's
/// part of its rack's shares. What they held is looked at too.
pub fn share_add_many<F: Field>(
    layout: Layout<F>,
    lost_count: u32,
    host: Rack,
    tray: Tray,
    symbols: &[F::Symbol],
    share: &[F::Symbol],
) -> Result<Vec<F::Symbol>, Refusal> {
    let numbers = layout.numbers_with(0)?;
    added::<F>(numbers, lost_count, host, tray, symbols, share)
}

/// The shares of a whole rack, past the layout's ground.
fn shared<F: Field>(
    numbers: Numbers,
    lost_count: u32,
    host: Rack,
    helper: Rack,
    rack: &[F::Symbol],
    share: &[F::Symbol],
) -> Result<Vec<F::Symbol>, Refusal> {
    let asked = Asked {
        lost_count: lost_count as usize,
        host,
        helper,
        wrong_length: rack.len() != numbers.size * numbers.layers,
        share_length: share.len(),
        in_range: F::are_symbols(rack),
    };
    asked.refuse(&numbers)?;
    let mut shares = vec![F::ZERO; share.len()];
    for (place, symbols) in rack.chunks(numbers.layers).enumerate() {
        add_tray::<F>(&numbers, host, place, symbols, &mut shares);
    }
    Ok(shares)
}

/// The shares with a tray's part added, past the layout's ground.
fn added<F: Field>(
    numbers: Numbers,
    lost_count: u32,
    host: Rack,
    tray: Tray,
    symbols: &[F::Symbol],
    share: &[F::Symbol],
) -> Result<Vec<F::Symbol>, Refusal> {
    let asked = Asked {
        lost_count: lost_count as usize,
        host,
        // A tray is outside the layout exactly when its rack is.
        helper: Rack(tray.0 / numbers.size as u32),
        wrong_length: symbols.len() != numbers.layers,
        share_length: share.len(),
        in_range: F::are_symbols(symbols) && F::are_symbols(share),
    };
    asked.refuse(&numbers)?;
    let mut shares = share.to_vec();
    let place = tray.0 as usize % numbers.size;
    add_tray::<F>(&numbers, host, place, symbols, &mut shares);
    Ok(shares)
}

/// What the grounds of a share call hang on, past the layout.
struct Asked {
    lost_count: usize,
    host: Rack,
    helper: Rack,
    /// Whether the rack or the tray has not its length.
    wrong_length: bool,
    share_length: usize,
    /// Whether the numbers that the call looks at are symbols.
    in_range: bool,
}

impl Asked {
    /// With no lost tray no symbol is looked at.
    fn refuse(&self, numbers: &Numbers) -> Result<(), Refusal> {
        let due = self.lost_count.checked_mul(numbers.groups);
        let no_rack = !numbers.has_rack(self.host) || !numbers.has_rack(self.helper);
        let no_symbol = self.lost_count != 0 && !self.in_range;
        refuse(&[
            (
                Refusal::Length,
                self.wrong_length || due != Some(self.share_length),
            ),
            (Refusal::Number, no_rack || no_symbol),
            (Refusal::LostCount, !numbers.can_lose(self.lost_count)),
            (Refusal::Host, self.host == self.helper),
        ])
    }
}

/// Adds a tray's part to its rack's shares.
fn add_tray<F: Field>(
    numbers: &Numbers,
    host: Rack,
    place: usize,
    symbols: &[F::Symbol],
    shares: &mut [F::Symbol],
) {
    for (m, share) in shares.chunks_mut(numbers.groups).enumerate() {
        let weight = weight::<F>(numbers, place, m);
        for (layer, &symbol) in symbols.iter().enumerate() {
            let sum = &mut share[numbers.group(host.0 as usize, layer)];
            *sum = F::add(*sum, F::multiply(weight, symbol));
        }
    }
}
