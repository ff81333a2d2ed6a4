//! Many filled codewords: what the calls are given.

use super::library::Batched;
use crate::filled::symbols;
use gesarumbo::{Layout, Numbers, Rack, Tray};

/// The same symbols of all codewords: one codeword's after another's, and interleaved.
#[derive(Clone)]
pub struct Both<S> {
    pub apart: Vec<S>,
    pub together: Vec<S>,
}

impl<S: Copy> Both<S> {
    pub fn apart(apart: Vec<S>, many: usize) -> Both<S> {
        let length = apart.len() / many;
        let step = length.max(1);
        let of_place = |at: usize| apart.iter().skip(at).step_by(step).copied();
        Both {
            together: (0..length).flat_map(of_place).collect(),
            apart,
        }
    }

    pub fn together(together: Vec<S>, many: usize) -> Both<S> {
        let of_codeword = |q: usize| together.iter().skip(q).step_by(many).copied();
        Both {
            apart: (0..many).flat_map(of_codeword).collect(),
            together,
        }
    }
}

/// The inputs of every call for one layout.
pub struct Many<S> {
    pub numbers: Numbers,
    pub many: usize,
    pub data: Both<S>,
    pub codewords: Both<S>,
    /// The rack in the middle, which a share is for.
    pub host: Rack,
    /// The d helpers, and the share of the first.
    pub helpers: Vec<Rack>,
    pub first_share: Both<S>,
    /// The shares of all helpers.
    pub shares: Both<S>,
    /// A tray of the host rack, and its symbols.
    pub lost: Tray,
    pub lost_tray: Both<S>,
}

impl<S: Batched> Many<S> {
    /// Codewords of data that only look random, by the call for one codeword.
    pub fn new(layout: Layout, many: usize) -> Many<S> {
        let numbers = S::numbers(layout).expect("the layout is admissible");
        let data = Both::apart(symbols(many * numbers.data()), many);
        let mut codewords = vec![S::default(); many * numbers.codeword()];
        let own = data.apart.chunks(numbers.data());
        for (data, codeword) in own.zip(codewords.chunks_mut(numbers.codeword())) {
            S::LIBRARY.store(&numbers, data, codeword);
        }
        let host = Rack::new(layout.racks / 2);
        let others = (0..layout.racks)
            .map(Rack::new)
            .filter(|&rack| rack != host);
        let mut many = Many {
            numbers,
            many,
            data,
            codewords: Both::apart(codewords, many),
            host,
            helpers: others.take(numbers.helpers).collect(),
            first_share: Both::apart(vec![], 1),
            shares: Both::apart(vec![], 1),
            lost: Tray::new(layout.racks / 2 * layout.size + layout.size / 2),
            lost_tray: Both::apart(vec![], 1),
        };
        many.first_share = many.share_of(many.helpers[0]);
        many.shares = many.all_shares();
        many.lost_tray = many.tray(many.lost);
        many
    }

    /// The share of a helper, by the call for one codeword.
    fn share_of(&self, helper: Rack) -> Both<S> {
        let mut shares = vec![S::default(); self.many * self.numbers.groups];
        for (q, share) in shares.chunks_mut(self.numbers.groups).enumerate() {
            let rack = self.rack(self.of(&self.codewords.apart, q), helper);
            S::LIBRARY.share(&self.numbers, self.host, helper, rack, share);
        }
        Both::apart(shares, self.many)
    }

    /// The shares of all helpers, one after another.
    fn all_shares(&self) -> Both<S> {
        let shares = self.helpers.iter().map(|&helper| self.share_of(helper));
        let together = shares.flat_map(|share| share.together).collect();
        Both::together(together, self.many)
    }

    /// The symbols of a tray.
    fn tray(&self, tray: Tray) -> Both<S> {
        let length = self.numbers.layers * self.many;
        let place = tray.number() as usize * length;
        let together = self.codewords.together[place..place + length].to_vec();
        Both::together(together, self.many)
    }

    /// A rack of a codeword, or of all of them together.
    pub fn rack<'a>(&self, codewords: &'a [S], rack: Rack) -> &'a [S] {
        let length = codewords.len() / self.numbers.racks;
        &codewords[rack.number() as usize * length..][..length]
    }

    /// Buffers that are to be written, so many symbols for each codeword.
    pub fn cleared(&self, length: usize) -> Both<S> {
        let zeros = vec![S::default(); self.many * length];
        Both {
            apart: zeros.clone(),
            together: zeros,
        }
    }

    /// What a codeword has of symbols that lie one codeword's after another's.
    pub fn of<'a>(&self, apart: &'a [S], q: usize) -> &'a [S] {
        let length = apart.len() / self.many;
        &apart[q * length..][..length]
    }
}
