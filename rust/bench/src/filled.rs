//! A filled cabinet: what the calls are given.

use crate::symbol::Symbol;
use gesarumbo::{Layout, Numbers, Rack, Tested, Tray};

/// The inputs of every call for one layout.
pub struct Filled<S> {
    pub numbers: Numbers,
    pub data: Vec<S>,
    pub codeword: Vec<S>,
    pub lost: Tray,
    pub host: Rack,
    /// The d helpers, and their shares in this order.
    pub helpers: Vec<Rack>,
    pub shares: Vec<S>,
    /// A helper, and the shares with its own wrong in every symbol.
    pub stale: Rack,
    pub with_stale: Vec<S>,
}

impl<S: Symbol> Filled<S> {
    /// A cabinet with data that only look random.
    pub fn new(layout: Layout) -> Filled<S> {
        let numbers = S::numbers(layout).expect("the layout is admissible");
        let data = symbols(numbers.data());
        let mut codeword = vec![S::default(); numbers.codeword()];
        S::LIBRARY.store(&numbers, &data, &mut codeword);
        assert_eq!(S::LIBRARY.test(&numbers, &codeword), Tested::Sound);
        let host = Rack::new(layout.racks / 2);
        let mut filled = Filled {
            numbers,
            data,
            codeword,
            lost: Tray::new(layout.racks / 2 * layout.size + layout.size / 2),
            host,
            helpers: (0..layout.racks)
                .map(Rack::new)
                .filter(|&rack| rack != host)
                .take(numbers.helpers)
                .collect(),
            shares: vec![S::default(); numbers.traffic],
            stale: host,
            with_stale: vec![],
        };
        filled.collect_shares();
        filled.spoil_a_share();
        filled
    }

    /// The helper in the middle sends a stale share.
    fn spoil_a_share(&mut self) {
        let place = self.helpers.len() / 2;
        self.stale = self.helpers[place];
        self.with_stale = self.shares.clone();
        let groups = self.numbers.groups;
        for symbol in &mut self.with_stale[place * groups..][..groups] {
            *symbol = S::of((*symbol).into() + 1);
        }
    }

    fn collect_shares(&mut self) {
        let mut shares = std::mem::take(&mut self.shares);
        let parts = shares.chunks_mut(self.numbers.groups);
        for (&helper, part) in self.helpers.iter().zip(parts) {
            S::LIBRARY.share(&self.numbers, self.host, helper, self.rack(helper), part);
        }
        self.shares = shares;
    }

    pub fn first_rack(&self) -> Rack {
        Rack::new(0)
    }

    pub fn last_rack(&self) -> Rack {
        Rack::new(self.numbers.layout.racks - 1)
    }

    /// A helper of a host rack: the first of the others.
    pub fn helper_of(&self, host: Rack) -> Rack {
        Rack::new(u32::from(host == self.first_rack()))
    }

    /// Its share.
    pub fn share_for(&self, host: Rack) -> Vec<S> {
        let helper = self.helper_of(host);
        let mut symbols = vec![S::default(); self.numbers.groups];
        S::LIBRARY.share(&self.numbers, host, helper, self.rack(helper), &mut symbols);
        symbols
    }

    /// The symbols of a rack's trays.
    pub fn rack(&self, rack: Rack) -> &[S] {
        let length = self.numbers.rack();
        &self.codeword[rack.number() as usize * length..][..length]
    }

    /// The symbols of a tray.
    pub fn tray(&self, tray: Tray) -> &[S] {
        let length = self.numbers.layers;
        &self.codeword[tray.number() as usize * length..][..length]
    }
}

/// The same symbols in every run, by a xorshift.
pub fn symbols<S: Symbol>(count: usize) -> Vec<S> {
    let mut state = 0x2545_F491_4F6C_DD1D_u64;
    let mut next = || {
        state ^= state << 13;
        state ^= state >> 7;
        state ^= state << 17;
        S::of(state >> 32)
    };
    (0..count).map(|_| next()).collect()
}
