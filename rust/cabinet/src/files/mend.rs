//! The codewords of a segment, put right wherever code and checksums can, stripe by stripe.
//!
//! Trays with a wrong checksum are erased first, and the library says whether the others fit, and
//! which one is wrong where one is. Where too many have a wrong checksum to erase them all, each
//! stripe is corrected with those erased that must be, or layer by layer, each of which has checks of
//! its own. Then the checksums must bear it out: with the
//! trays put right, k of them or more have the checksum that was written, so that the codewords are
//! theirs. Where they do not, other sets are tried in the stripes that no check has settled; what is
//! still not borne out only the checksum of all data can decide.

use super::erasures::Erasures;
use super::found::Found;
use super::interleave::together;
use super::segment::Segment;
use super::stripe::Stripe;
use crate::code::symbol::Symbol;
use crate::failure::Failure;
use gesarumbo::{Kept, Refusal, Tray};
use std::ops::Range;

/// A stripe put right.
#[derive(Clone)]
pub struct Mended<S> {
    pub codeword: Vec<S>,
    /// Trays that are there and hold other symbols than they should.
    pub wrong: Vec<Tray>,
    /// What it was held against.
    pub held: Held,
    /// How many checks were left over that it meets.
    checks: usize,
}

/// A segment put right.
pub struct Mending<S> {
    pub stripes: Vec<Mended<S>>,
    /// Why checks and checksums do not bear it out, where they do not: then the checksum of all data
    /// has to.
    pub doubt: Option<Failure>,
    /// How many ways there are to put it right then; the one that was asked for is taken.
    pub ways: usize,
}

/// No more ways are held against the checksum of all data.
const MOST_WAYS: usize = 64;

/// What symbols were held against.
#[derive(Clone, Copy, PartialEq, Eq, PartialOrd, Ord, Debug)]
pub enum Held {
    /// No tray to spare and no checksums: nothing could be tested.
    Nothing,
    /// The checksums of the trays that they come from.
    Checksums,
    /// Parity checks, of trays to spare.
    Checks,
}

/// No more sets of trays are tried for a stripe, and no more choices for a segment.
const MOST_TRIES: usize = 4096;

/// Puts all stripes of a segment right; trays that a person insists on are not looked at. What is not
/// sure is refused.
pub fn mend<S: Symbol>(segment: &Segment<S>, insisted: &[Tray]) -> Result<Vec<Mended<S>>, Failure> {
    let mending = mend_as(segment, &Erasures::whole(insisted))?;
    match mending.doubt {
        None => Ok(mending.stripes),
        Some(doubt) => Err(doubt),
    }
}

/// Puts all stripes of a segment right, with some trays not looked at in some stripes.
pub fn mend_as<S: Symbol>(
    segment: &Segment<S>,
    erasures: &Erasures,
) -> Result<Mending<S>, Failure> {
    let (missing, rotten) = (segment.missing(), segment.rotten());
    let checks = segment.cabinet.numbers.checks;
    let (mut stripes, mut is_clear) = (Vec::new(), true);
    for number in segment.stripes.clone() {
        let stripe = segment.stripe(number);
        let erased = union(&erasures.of(number), &segment.with_gaps(number));
        let doubt = Doubt::of(&missing, &erased, &rotten);
        let all = union(&doubt.erased, &doubt.rotten);
        let one = match all.len() <= checks {
            true => correct(&stripe, &all),
            false => {
                is_clear = false;
                doubt.search(&stripe)
            }
        };
        stripes.push(one.map_err(stripe.named())?);
    }
    let (mut doubt, mut ways) = (None, 1);
    if !is_clear && !is_borne_out(segment, &stripes)? {
        if let Some(open) = choose(segment, &mut stripes, erasures)? {
            let about = "the trays put right do not have the checksums that were written";
            let failure = Failure::refused(about)(Refusal::Survivors);
            doubt = Some(segment.named()(failure));
            ways = open;
        }
    }
    Ok(Mending {
        stripes,
        doubt,
        ways,
    })
}

/// Two lists as one that rises.
pub fn union(one: &[Tray], other: &[Tray]) -> Vec<Tray> {
    let mut all = [one, other].concat();
    all.sort();
    all.dedup();
    all
}

/// One stripe with these trays erased, and one more put right where the library can.
fn correct<S: Symbol>(stripe: &Stripe<S>, erased: &[Tray]) -> Result<Mended<S>, Failure> {
    let cabinet = stripe.cabinet;
    let mut codeword = stripe.codeword.clone();
    let about = |refusal| {
        let known = match refusal {
            Refusal::Count => format!(": any {} may be lost", cabinet.numbers.checks),
            _ => String::new(),
        };
        let about = format!("recovery of {} trays{known}", erased.len());
        Failure::refused(about)(refusal)
    };
    let done = (S::CALLS.recover_correcting)(cabinet.description.layout, &mut codeword, erased)
        .map_err(about)?;
    let held = match done.checks {
        0 if cabinet.geometry.has_checksums() => Held::Checksums,
        0 => Held::Nothing,
        _ => Held::Checks,
    };
    // To find a wrong tray takes two checks.
    let spent = if done.tray.is_some() { 2 } else { 0 };
    let left = (done.checks as usize).saturating_sub(spent);
    Ok(finished(stripe, codeword, held, left))
}

/// The stripe with its wrong trays named: those that are there and differ.
fn finished<S: Symbol>(
    stripe: &Stripe<S>,
    codeword: Vec<S>,
    held: Held,
    checks: usize,
) -> Mended<S> {
    let layers = stripe.cabinet.numbers.layers;
    let pairs = codeword.chunks(layers).zip(stripe.codeword.chunks(layers));
    let trays = stripe.cabinet.numbers.all_trays().zip(pairs);
    let wrong =
        trays.filter(|(tray, (right, there))| stripe.found(*tray).has_symbols() && right != there);
    Mended {
        wrong: wrong.map(|(tray, _)| tray).collect(),
        codeword,
        held,
        checks,
    }
}

/// The trays of a stripe that are erased, and those of which it is not known whether they are right
/// there.
struct Doubt {
    erased: Vec<Tray>,
    rotten: Vec<Tray>,
}

impl Doubt {
    fn of(missing: &[Tray], insisted: &[Tray], rotten: &[Tray]) -> Doubt {
        let erased = union(missing, insisted);
        let mut rotten = rotten.to_vec();
        rotten.retain(|tray| !erased.contains(tray));
        Doubt { erased, rotten }
    }

    fn is_doubted(&self, tray: &Tray) -> bool {
        self.rotten.contains(tray) || self.erased.contains(tray)
    }

    /// One stripe with more trays of a wrong checksum than can be erased: as few of them as must be.
    fn search<S: Symbol>(&self, stripe: &Stripe<S>) -> Result<Mended<S>, Failure> {
        let found = correct(stripe, &self.erased);
        match found {
            Ok(found) if found.wrong.iter().all(|tray| self.is_doubted(tray)) => return Ok(found),
            Err(Failure::Refused { refusal, .. }) if refusal != Refusal::Survivors => return found,
            _ => {}
        }
        if let Some(found) = self.tries(stripe, 1).next() {
            return found;
        }
        if let Some(found) = self.by_layers(stripe) {
            return Ok(found);
        }
        // Where no check is left to test by, the checksums have to tell.
        if let Some(found) = self.tries(stripe, 0).next() {
            return found;
        }
        let about = format!(
            "{} trays are missing and {} have a wrong checksum",
            self.erased.len(),
            self.rotten.len()
        );
        Err(Failure::refused(about)(Refusal::Survivors))
    }

    /// The stripe with sets of these trays erased besides, small sets first, wherever the others fit
    /// and so many checks are left.
    fn tries<'s, S: Symbol>(
        &'s self,
        stripe: &'s Stripe<'s, S>,
        least: usize,
    ) -> impl Iterator<Item = Result<Mended<S>, Failure>> + 's {
        let (layout, checks) = (
            stripe.cabinet.description.layout,
            stripe.cabinet.numbers.checks,
        );
        let room = checks.saturating_sub(self.erased.len());
        let one = move |set: Vec<Tray>| -> Result<Option<Mended<S>>, Failure> {
            let tried = union(&self.erased, &set);
            match stripe.kept(&stripe.codeword, &tried)? {
                Kept::Sound { checks } if checks as usize >= least => {
                    let mut codeword = stripe.codeword.clone();
                    (S::CALLS.recover)(layout, &mut codeword, &tried)
                        .map_err(Failure::refused("recovery"))?;
                    let left = checks as usize;
                    Ok(Some(finished(stripe, codeword, Held::Checksums, left)))
                }
                _ => Ok(None),
            }
        };
        let sets = sets(&self.rotten, room).take(MOST_TRIES);
        sets.filter_map(move |set| one(set).transpose())
    }

    /// The stripe put right layer by layer, in each of which another tray may be wrong; nothing where
    /// the library cannot, or no check is left over.
    fn by_layers<S: Symbol>(&self, stripe: &Stripe<S>) -> Option<Mended<S>> {
        let layers = stripe.cabinet.numbers.layers;
        let (mut codeword, mut checks) = (stripe.codeword.clone(), usize::MAX);
        let mut open = vec![0..layers];
        while let Some(run) = open.pop() {
            // Zeros in all other layers meet every check.
            let part = Stripe {
                cabinet: stripe.cabinet,
                number: stripe.number,
                found: stripe.found,
                codeword: only(&stripe.codeword, layers, &run),
            };
            let found = correct(&part, &self.erased).ok();
            let found = found.filter(|found| found.wrong.iter().all(|tray| self.is_doubted(tray)));
            match found.filter(|found| found.checks > 0) {
                Some(found) => {
                    checks = checks.min(found.checks);
                    take_over(&mut codeword, &found.codeword, layers, &run);
                }
                None if run.len() == 1 => return None,
                None => {
                    let middle = run.start + run.len() / 2;
                    open.extend([run.start..middle, middle..run.end]);
                }
            }
        }
        Some(finished(stripe, codeword, Held::Checksums, checks))
    }

    /// All that a stripe may be: what the library finds, where a check is left over that it meets,
    /// and else any with some of these trays erased, wherever the others fit.
    fn all<S: Symbol>(&self, stripe: &Stripe<S>) -> Result<Vec<Mended<S>>, Failure> {
        let found = correct(stripe, &self.erased);
        let found = found.ok().filter(|found| {
            let is_doubted = |tray| self.is_doubted(tray);
            found.wrong.iter().all(is_doubted)
        });
        let mut all: Vec<Mended<S>> = found.into_iter().collect();
        if all.first().is_some_and(|found| found.checks > 0) {
            return Ok(all);
        }
        match self.by_layers(stripe) {
            Some(found) if found.checks > 1 => return Ok(vec![found]),
            found => all.extend(found),
        }
        for one in self.tries(stripe, 0) {
            let one = one?;
            if all.iter().all(|other| other.codeword != one.codeword) {
                all.push(one);
            }
        }
        Ok(all)
    }
}

/// A codeword with zeros in all layers but these.
fn only<S: Symbol>(codeword: &[S], layers: usize, run: &Range<usize>) -> Vec<S> {
    let mut part = vec![S::default(); codeword.len()];
    take_over(&mut part, codeword, layers, run);
    part
}

/// Puts these layers of one codeword into another.
fn take_over<S: Symbol>(codeword: &mut [S], other: &[S], layers: usize, run: &Range<usize>) {
    let trays = codeword.chunks_mut(layers).zip(other.chunks(layers));
    trays.for_each(|(tray, other)| tray[run.clone()].copy_from_slice(&other[run.clone()]));
}

/// No more sets of trays are taken as wrong in a whole segment.
const MOST_SETS: usize = 256;

/// What the stripes of a segment may be with some trays erased in all of them.
struct Choice<S> {
    stripes: Vec<Vec<Mended<S>>>,
    /// How many ways there are to take one for each stripe.
    ways: usize,
}

impl<S: Symbol> Choice<S> {
    /// With these trays erased in all stripes; nothing where a stripe cannot be anything then.
    fn of(
        segment: &Segment<S>,
        erasures: &Erasures,
        set: &[Tray],
    ) -> Result<Option<Choice<S>>, Failure> {
        let (missing, rotten) = (segment.missing(), segment.rotten());
        let missing = union(&missing, set);
        let (mut stripes, mut ways) = (Vec::new(), 1_usize);
        for number in segment.stripes.clone() {
            let erased = union(&erasures.of(number), &segment.with_gaps(number));
            let doubt = Doubt::of(&missing, &erased, &rotten);
            let all = doubt.all(&segment.stripe(number))?;
            ways = ways.saturating_mul(all.len());
            stripes.push(all);
        }
        Ok((ways > 0).then_some(Choice { stripes, ways }))
    }

    /// One of the ways.
    fn way(&self, mut way: usize) -> Vec<Mended<S>> {
        let take = |all: &Vec<Mended<S>>| {
            let one = all[way % all.len()].clone();
            way /= all.len();
            one
        };
        self.stripes.iter().map(take).collect()
    }
}

/// Tries all that the stripes may be, with some trays taken as wrong in all of them and others in
/// some, those with the fewest ways first, until the checksums bear one out. Where they bear out none,
/// it takes the one that was asked for, and says how many there are.
fn choose<S: Symbol>(
    segment: &Segment<S>,
    stripes: &mut Vec<Mended<S>>,
    erasures: &Erasures,
) -> Result<Option<usize>, Failure> {
    let rotten = segment.rotten();
    let sets = std::iter::once(Vec::new()).chain(sets(&rotten, rotten.len()));
    let mut choices: Vec<Choice<S>> = Vec::new();
    for set in sets.take(MOST_SETS) {
        choices.extend(Choice::of(segment, erasures, &set)?);
    }
    choices.sort_by_key(|choice| choice.ways);
    let mut left = MOST_TRIES;
    let mut open: Vec<Vec<Mended<S>>> = Vec::new();
    for choice in &choices {
        for way in 0..choice.ways.min(left) {
            let tried = choice.way(way);
            if is_borne_out(segment, &tried)? {
                *stripes = tried;
                return Ok(None);
            }
            if open.len() < MOST_WAYS && !open.iter().any(|other| are_same(other, &tried)) {
                open.push(tried);
            }
        }
        left -= choice.ways.min(left);
    }
    let ways = open.len().max(1);
    if !open.is_empty() {
        *stripes = open.swap_remove(erasures.way % ways);
    }
    Ok(Some(ways))
}

fn are_same<S: Symbol>(one: &[Mended<S>], other: &[Mended<S>]) -> bool {
    let mut pairs = one.iter().zip(other);
    pairs.all(|(one, other)| one.codeword == other.codeword)
}

/// All sets of one or more of these trays, no larger than this, small ones first.
fn sets(trays: &[Tray], most: usize) -> impl Iterator<Item = Vec<Tray>> + '_ {
    let mut set: Vec<usize> = Vec::new();
    std::iter::from_fn(move || {
        if !next_set(&mut set, trays.len()) {
            set = (0..set.len() + 1).collect();
        }
        let fits = set.len() <= most.min(trays.len());
        fits.then(|| set.iter().map(|place| trays[*place]).collect())
    })
}

/// The next set of as many places below an end; false after the last, and where there are none.
fn next_set(set: &mut [usize], end: usize) -> bool {
    let count = set.len();
    for place in (0..count).rev() {
        if set[place] + count - place < end {
            set[place] += 1;
            for later in place + 1..count {
                set[later] = set[later - 1] + 1;
            }
            return true;
        }
    }
    false
}

/// Whether the checksums bear out what was put right: k trays or more have the one that was written.
fn is_borne_out<S: Symbol>(segment: &Segment<S>, stripes: &[Mended<S>]) -> Result<bool, Failure> {
    let mut right = 0;
    for tray in segment.cabinet.numbers.all_trays() {
        let is_right = match segment.found(tray) {
            Found::Live => stripes.iter().all(|one| !one.wrong.contains(&tray)),
            Found::Rotten => segment.has_checksum(tray, &part_of(segment, stripes, tray))?,
            _ => false,
        };
        right += usize::from(is_right);
    }
    Ok(right >= segment.cabinet.numbers.dimension)
}

/// A tray's part of a segment put right, interleaved.
pub fn part_of<S: Symbol>(segment: &Segment<S>, mended: &[Mended<S>], tray: Tray) -> Vec<S> {
    let layers = segment.cabinet.numbers.layers;
    let mut part = vec![S::default(); layers * mended.len()];
    for (place, one) in mended.iter().enumerate() {
        let symbols = &one.codeword[tray.number() as usize * layers..][..layers];
        together(symbols, mended.len(), place, &mut part);
    }
    part
}

#[cfg(test)]
mod tests {
    use super::sets;
    use gesarumbo::Tray;

    #[test]
    fn sets_come_by_size() {
        let trays: Vec<Tray> = [3, 5, 8].map(Tray::new).to_vec();
        let found: Vec<Vec<u32>> = sets(&trays, 3)
            .map(|set| set.iter().map(|tray| tray.number()).collect())
            .collect();
        let expected: [&[u32]; 7] = [&[3], &[5], &[8], &[3, 5], &[3, 8], &[5, 8], &[3, 5, 8]];
        assert_eq!(found, expected);
        assert_eq!(sets(&trays, 1).count(), 3);
        assert_eq!(sets(&trays, 0).count(), 0);
        assert_eq!(sets(&trays[..1], 3).count(), 1);
    }
}
