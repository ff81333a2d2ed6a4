//! One stripe of a cabinet: the codeword that its trays are, as far as they are there.

use super::found::Found;
use super::shape::Shape;
use crate::code::symbol::Symbol;
use crate::failure::Failure;
use crate::terminal::words;
use gesarumbo::{checksum, Kept, Rack, Refusal, Tray};

/// A stripe with every tray read.
pub struct Stripe<'a, S> {
    pub cabinet: &'a Shape,
    pub number: u32,
    /// What stands at each tray's place in its segment.
    pub found: &'a [Found],
    /// The symbols, with zeros for the trays that have none.
    pub codeword: Vec<S>,
}

impl<S: Symbol> Stripe<'_, S> {
    /// What stands at a tray's place; a tray outside the layout is absent.
    pub fn found(&self, tray: Tray) -> &Found {
        let found = self.found.get(tray.number() as usize);
        found.unwrap_or(&Found::Absent)
    }

    /// For `map_err`: names the stripe, where there are several.
    pub fn named(&self) -> impl FnOnce(Failure) -> Failure + '_ {
        |failure| failure.at(&self.cabinet.place(self.number))
    }

    fn trays(&self, is_wanted: impl Fn(&Found) -> bool) -> Vec<Tray> {
        let all = self.cabinet.numbers.all_trays();
        all.filter(|tray| is_wanted(self.found(*tray))).collect()
    }

    /// The trays that have no symbols here.
    pub fn missing(&self) -> Vec<Tray> {
        self.trays(|found| !found.has_symbols())
    }

    /// The trays with a wrong checksum.
    pub fn rotten(&self) -> Vec<Tray> {
        self.trays(|found| *found == Found::Rotten)
    }

    /// The trays that are not live: missing or rotten.
    pub fn not_live(&self) -> Vec<Tray> {
        self.trays(|found| *found != Found::Live)
    }

    /// A tray's symbols, right or not.
    pub fn symbols(&self, tray: Tray) -> Result<&[S], Failure> {
        match self.found(tray) {
            found if found.has_symbols() => Ok(self.place(tray)),
            found => Err(found.failure(&self.cabinet.image_path(tray))),
        }
    }

    fn place(&self, tray: Tray) -> &[S] {
        let layers = self.cabinet.numbers.layers;
        &self.codeword[tray.number() as usize * layers..][..layers]
    }

    /// The symbols of these trays one after another. All must be there but for some, which are left
    /// as zeros.
    pub fn joined(
        &self,
        trays: impl Iterator<Item = Tray>,
        but: &[Tray],
    ) -> Result<Vec<S>, Failure> {
        let mut joined = Vec::new();
        for tray in trays {
            if but.contains(&tray) {
                joined.resize(joined.len() + self.cabinet.numbers.layers, S::default());
            } else {
                joined.extend_from_slice(self.symbols(tray)?);
            }
        }
        Ok(joined)
    }

    /// What its symbols are known by.
    pub fn fingerprint(&self) -> u64 {
        fingerprint(&self.codeword)
    }

    /// The codeword with these symbols for some trays, one after another.
    pub fn codeword_with(&self, trays: &[Tray], symbols: &[S]) -> Vec<S> {
        let layers = self.cabinet.numbers.layers;
        let mut codeword = self.codeword.clone();
        for (tray, symbols) in trays.iter().zip(symbols.chunks(layers)) {
            let start = tray.number() as usize * layers;
            codeword[start..start + layers].copy_from_slice(symbols);
        }
        codeword
    }

    /// Whether the live trays fit together with these symbols for some, and by how many checks this
    /// was tested. Other trays are not looked at.
    pub fn test_with(&self, trays: &[Tray], symbols: &[S]) -> Result<Kept, Failure> {
        let mut erased = self.not_live();
        erased.retain(|tray| !trays.contains(tray));
        self.kept(&self.codeword_with(trays, symbols), &erased)
    }

    /// Whether a codeword has these symbols but for the trays listed; with more of these than there
    /// are checks nothing is tested.
    pub fn kept(&self, codeword: &[S], erased: &[Tray]) -> Result<Kept, Failure> {
        match (S::CALLS.test_kept)(self.cabinet.description.layout, codeword, erased) {
            Err(Refusal::Count) => Ok(Kept::Sound { checks: 0 }),
            kept => kept.map_err(Failure::refused("test")),
        }
    }

    /// Whether the trays fit together with these symbols for one of them and without those of a
    /// rack, and by how many checks.
    pub fn fits_without(&self, rack: Rack, tray: Tray, symbols: &[S]) -> Result<Kept, Failure> {
        let numbers = &self.cabinet.numbers;
        let mut erased: Vec<Tray> = numbers.trays_of(rack).collect();
        erased.extend(self.not_live());
        erased.retain(|other| *other != tray);
        erased.sort();
        erased.dedup();
        self.kept(&self.codeword_with(&[tray], symbols), &erased)
    }

    /// What a helper rack sends for the repair of so many trays of a host rack, worked out from the
    /// helper's trays: as many shares, one after another.
    pub fn share(&self, count: u32, host: Rack, helper: Rack) -> Result<Vec<S>, Failure> {
        self.judge_share(count, host, helper)?;
        let rack = self.joined(self.cabinet.numbers.trays_of(helper), &[])?;
        self.share_of(count, host, helper, &rack)
    }

    /// Lets the library judge the numbers of a share, over zeros.
    pub fn judge_share(&self, count: u32, host: Rack, helper: Rack) -> Result<(), Failure> {
        let zeros = vec![S::default(); self.cabinet.numbers.rack()];
        self.share_of(count, host, helper, &zeros).map(|_| ())
    }

    fn share_of(
        &self,
        count: u32,
        host: Rack,
        helper: Rack,
        rack: &[S],
    ) -> Result<Vec<S>, Failure> {
        let (layout, numbers) = (self.cabinet.description.layout, &self.cabinet.numbers);
        let trays = words::count(count as usize, "tray");
        let most = Rack::new(layout.racks - 1);
        let known = match helper.max(host) {
            rack if rack > most => format!(": no rack {rack}: racks are 0 to {most}"),
            _ => String::new(),
        };
        let about = format!("share of rack {helper} for {trays} of rack {host}{known}");
        // Any count above a rack's trays is refused as one more than these is.
        let count = count.min(layout.size + 1);
        let mut share = vec![S::default(); count as usize * numbers.groups];
        let shared = match count {
            1 => (S::CALLS.share)(layout, host, helper, rack, &mut share),
            _ => (S::CALLS.share_many)(layout, count, host, helper, rack, &mut share),
        };
        shared.map_err(Failure::refused(about))?;
        Ok(share)
    }
}

/// A number that changes when symbols do: what a checkpoint knows them by.
pub fn fingerprint<S: Symbol>(symbols: &[S]) -> u64 {
    checksum(0, &S::to_bytes(symbols))
}
