//! The calls that are timed, one entry each.

use super::library::Batched;
use super::many::{Both, Many};
use gesarumbo::Numbers;

/// A call with one buffer: what it holds before and after, the call for all codewords over it, and
/// the call for one codeword over its own.
pub struct Call<S: 'static> {
    pub name: &'static str,
    /// The symbols of a codeword that its figures are for.
    pub symbols: fn(&Numbers) -> usize,
    pub before: fn(&Many<S>) -> Both<S>,
    pub batch: fn(&Many<S>, &mut [S]),
    pub single: fn(&Many<S>, usize, &mut [S]),
    pub after: fn(&Many<S>) -> &Both<S>,
}

impl<S: Batched> Call<S> {
    /// The call of this name, if there is one.
    pub fn named(name: &str) -> Option<Call<S>> {
        Call::ALL.into_iter().find(|call| call.name == name)
    }

    /// Figures are by symbols of data; a share by the symbols of the helper's rack, a repair by
    /// those of the lost tray.
    pub const ALL: [Call<S>; 3] = [
        Call {
            name: "store-batch",
            symbols: Numbers::data,
            before: |m| m.cleared(m.numbers.codeword()),
            batch: |m, codewords| S::store_batch(&m.numbers, m.many, &m.data.together, codewords),
            single: |m, q, codeword| {
                S::LIBRARY.store(&m.numbers, m.of(&m.data.apart, q), codeword);
            },
            after: |m| &m.codewords,
        },
        Call {
            name: "share-batch",
            symbols: Numbers::rack,
            before: |m| m.cleared(m.numbers.groups),
            batch: |m, share| {
                let rack = m.rack(&m.codewords.together, m.helpers[0]);
                S::share_batch(&m.numbers, m.many, m.host, m.helpers[0], rack, share);
            },
            single: |m, q, share| {
                let codeword = m.of(&m.codewords.apart, q);
                let rack = m.rack(codeword, m.helpers[0]);
                S::LIBRARY.share(&m.numbers, m.host, m.helpers[0], rack, share);
            },
            after: |m| &m.first_share,
        },
        Call {
            name: "repair-batch",
            symbols: |numbers| numbers.layers,
            before: |m| m.cleared(m.numbers.layers),
            batch: |m, spare| {
                let host = m.rack(&m.codewords.together, m.host);
                let shares = &m.shares.together;
                S::repair_batch(&m.numbers, m.many, m.lost, &m.helpers, shares, host, spare);
            },
            single: |m, q, spare| {
                let host = m.rack(m.of(&m.codewords.apart, q), m.host);
                let shares = m.of(&m.shares.apart, q);
                S::LIBRARY.repair(&m.numbers, m.lost, &m.helpers, shares, host, spare);
            },
            after: |m| &m.lost_tray,
        },
    ];

    /// The call for one codeword for each of them.
    pub fn one_by_one(&self, many: &Many<S>, buffer: &mut [S]) {
        let length = buffer.len() / many.many;
        for (q, own) in buffer.chunks_mut(length).enumerate() {
            (self.single)(many, q, own);
        }
    }

    /// Asserts that both write the same.
    pub fn check(&self, many: &Many<S>) {
        let mut before = (self.before)(many);
        let after = (self.after)(many);
        (self.batch)(many, &mut before.together);
        self.one_by_one(many, &mut before.apart);
        let same = before.together == after.together && before.apart == after.apart;
        assert!(same, "{} differs in {}", self.name, many.numbers.layout);
    }
}
