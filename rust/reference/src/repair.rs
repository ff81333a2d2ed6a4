//! Repairing lost trays of one rack from shares, group by group: the calls for
//! layouts with E = 0, and what they have in common with the one for E = 1.

use crate::checks::Checks;
use crate::elimination::{solve, solve_many, Equation};
use crate::field::Field;
use crate::layout::{Layout, Numbers, Rack, Tray};
use crate::refusal::{refuse, rising, Refusal};
use crate::share::weight;
use std::ops::Range;

/// What a repair call reports, and what the spare holds afterwards.
#[derive(Clone, Debug, PartialEq, Eq)]
pub struct Repaired<S> {
    pub groups: u64,
    pub crossed: u64,
    pub remaining: u64,
    pub spare: Vec<S>,
}

/// What a repair goes by: the lost tray, the helpers and their shares, and the
/// host rack's symbols.
#[derive(Clone, Copy)]
pub struct Given<'a, S> {
    pub lost: Tray,
    pub helpers: &'a [Rack],
    pub shares: &'a [S],
    pub host: &'a [S],
}

/// The same for e lost trays of one rack. The shares lie helper by helper, and
/// those of one helper in order of m.
#[derive(Clone, Copy)]
pub struct GivenMany<'a, S> {
    pub lost: &'a [Tray],
    pub helpers: &'a [Rack],
    pub shares: &'a [S],
    pub host: &'a [S],
}

impl<'a, S> Given<'a, S> {
    /// The same with the lost tray in a list.
    pub fn as_many(self, lost: &'a [Tray; 1]) -> GivenMany<'a, S> {
        GivenMany {
            lost,
            helpers: self.helpers,
            shares: self.shares,
            host: self.host,
        }
    }
}

pub fn repair<F: Field>(
    layout: Layout<F>,
    given: Given<F::Symbol>,
    spare: &[F::Symbol],
    first: u64,
    budget: u64,
) -> Result<Repaired<F::Symbol>, Refusal> {
    let lost = [given.lost];
    repair_many(layout, given.as_many(&lost), spare, first, budget)
}

pub fn repair_many<F: Field>(
    layout: Layout<F>,
    given: GivenMany<F::Symbol>,
    spare: &[F::Symbol],
    first: u64,
    budget: u64,
) -> Result<Repaired<F::Symbol>, Refusal> {
    let numbers = layout.numbers_with(0)?;
    let groups = numbers.groups as u64;
    let done = budget.min(groups.saturating_sub(first));
    let piece = first.min(groups) as usize..(first.min(groups) + done) as usize;
    refuse_given::<F>(&numbers, given, spare, piece.clone())?;
    refuse(&[(Refusal::FirstGroup, first > groups)])?;
    let symbols = (given.lost.len() * numbers.helpers) as u64;
    let written = Repair::<F>::new(numbers, given, None).write(spare, piece);
    Ok(Repaired {
        groups: done,
        crossed: symbols * done,
        remaining: symbols * (groups - (first + done)),
        spare: written.expect("R checks in R unknowns have a solution"),
    })
}

/// The grounds past the layout's that repairs have in common, for one that does
/// these groups.
pub fn refuse_given<F: Field>(
    numbers: &Numbers,
    given: GivenMany<F::Symbol>,
    spare: &[F::Symbol],
    piece: Range<usize>,
) -> Result<(), Refusal> {
    refuse(&[(Refusal::Length, wrong_length(numbers, given, spare))])?;
    refuse(&[
        (
            Refusal::Number,
            outside(numbers, given) || !in_range::<F>(numbers, given, piece),
        ),
        (
            Refusal::Order,
            !rising(given.lost) || !rising(given.helpers),
        ),
        (Refusal::Count, given.helpers.len() != numbers.helpers),
        (Refusal::LostCount, !numbers.can_lose(given.lost.len())),
        (Refusal::Host, host_helps(numbers, given)),
    ])
}

/// The shares must have e·d·L/s symbols, the host rack u·L and the spare e·L,
/// with e the length of the lost list, whatever that is.
fn wrong_length<S>(numbers: &Numbers, given: GivenMany<S>, spare: &[S]) -> bool {
    let of_each = |symbols: usize| given.lost.len().checked_mul(symbols);
    of_each(numbers.helpers * numbers.groups) != Some(given.shares.len())
        || given.host.len() != numbers.size * numbers.layers
        || of_each(numbers.layers) != Some(spare.len())
}

/// Whether a number is outside the layout, or a lost tray outside the rack of
/// the first one listed.
fn outside<S>(numbers: &Numbers, given: GivenMany<S>) -> bool {
    let rack_of = |tray: Tray| tray.0 as usize / numbers.size;
    let bad_tray =
        |&tray: &Tray| !numbers.has_tray(tray) || rack_of(tray) != rack_of(given.lost[0]);
    given.lost.iter().any(bad_tray) || given.helpers.iter().any(|&rack| !numbers.has_rack(rack))
}

/// Whether the numbers that a piece looks at are symbols: in its own groups, all
/// share symbols and those of the host's trays that are not listed. With no lost
/// tray there is no host, and nothing is looked at. The lost trays must be of
/// one rack of the layout.
fn in_range<F: Field>(numbers: &Numbers, given: GivenMany<F::Symbol>, piece: Range<usize>) -> bool {
    let Some(first) = given.lost.first() else {
        return true;
    };
    let host = first.0 as usize / numbers.size;
    let sound = |place: usize| {
        let tray = Tray((host * numbers.size + place) as u32);
        !given.lost.contains(&tray)
    };
    let of_layer = |tray: &[F::Symbol], layer| {
        !piece.contains(&numbers.group(host, layer)) || F::is_symbol(tray[layer])
    };
    let mut shares = given.shares.chunks(numbers.groups);
    let mut host_trays = given.host.chunks(numbers.layers).enumerate();
    shares.all(|share| F::are_symbols(&share[piece.clone()]))
        && host_trays.all(|(place, tray)| {
            !sound(place) || (0..numbers.layers).all(|layer| of_layer(tray, layer))
        })
}

/// Whether the lost trays' rack is a helper.
fn host_helps<S>(numbers: &Numbers, given: GivenMany<S>) -> bool {
    let rack_of = |tray: &Tray| Rack(tray.0 / numbers.size as u32);
    let host = given.lost.first().map(rack_of);
    host.is_some_and(|host| given.helpers.contains(&host))
}

/// A repair that isn't refused on these grounds.
pub struct Repair<'a, F: Field> {
    numbers: Numbers,
    checks: Checks<F>,
    given: GivenMany<'a, F::Symbol>,
    host: usize,
    /// The places of the lost trays, as listed.
    lost: Vec<usize>,
    /// By m and place, worked out once.
    weights: Vec<Vec<F::Symbol>>,
    /// The helpers whose shares are gone by: their places in the list, and
    /// their racks.
    helpers: Vec<(usize, usize)>,
    /// The racks that are neither host nor such helpers.
    silent: Vec<usize>,
}

impl<F: Field> Repair<'_, F> {
    /// The repair that takes the shares as they are, or one of them as unknown:
    /// that of the helper at this place of the list.
    pub fn new(numbers: Numbers, given: GivenMany<F::Symbol>, open: Option<usize>) -> Repair<F> {
        let host = given.lost[0].0 as usize / numbers.size;
        let place = |tray: &Tray| tray.0 as usize % numbers.size;
        let weights = |m| {
            (0..numbers.size)
                .map(|place| weight::<F>(&numbers, place, m))
                .collect()
        };
        let racks = given.helpers.iter().map(|rack| rack.0 as usize);
        let helpers: Vec<(usize, usize)> = racks
            .enumerate()
            .filter(|(at, _)| Some(*at) != open)
            .collect();
        let helps = |rack: usize| helpers.iter().any(|&(_, helper)| helper == rack);
        let silent = (0..numbers.racks)
            .filter(|&rack| rack != host && !helps(rack))
            .collect();
        Repair {
            numbers,
            checks: Checks::new(numbers),
            given,
            host,
            lost: given.lost.iter().map(place).collect(),
            weights: (0..given.lost.len()).map(weights).collect(),
            helpers,
            silent,
        }
    }

    /// The spare with the layers of these groups written, in every lost tray;
    /// none where the checks contradict each other in one of the groups.
    pub fn write(&self, spare: &[F::Symbol], groups: Range<usize>) -> Option<Vec<F::Symbol>> {
        let mut written = spare.to_vec();
        let layers_of = self.numbers.layers_of_groups(self.host);
        for group in groups {
            let layers = &layers_of[group];
            let sums: Vec<Vec<F::Symbol>> = (0..self.lost.len())
                .map(|m| self.host_sums(group, layers, m))
                .collect::<Option<_>>()?;
            for (digit, &layer) in layers.iter().enumerate() {
                let of_layer: Vec<F::Symbol> = sums.iter().map(|of_m| of_m[digit]).collect();
                for (at, symbol) in self.lost_symbols(layer, &of_layer).iter().enumerate() {
                    written[at * self.numbers.layers + layer] = *symbol;
                }
            }
        }
        Some(written)
    }

    /// The host rack's sums of weight m in the layers of a group: the first
    /// unknowns of the R checks t = u·w + m summed over the group. The other
    /// unknowns are the group sums, so weighted, of the silent racks.
    fn host_sums(&self, group: usize, layers: &[usize], m: usize) -> Option<Vec<F::Symbol>> {
        let equation = |w: usize| -> Equation<F> {
            let t = self.numbers.size * w + m;
            let of_helpers = self.helpers.iter().map(|&(at, rack)| {
                let coefficient = self.coefficient(rack, layers[0], t);
                F::multiply(coefficient, self.share_symbol(at, m, group))
            });
            // The unknown part and the helpers' add up to zero.
            let right = F::negate(F::sum(of_helpers));
            self.unknown_part(layers, t).chain([right]).collect()
        };
        let equations = (0..self.numbers.rack_checks).map(equation).collect();
        solve::<F>(equations, self.unknowns())
    }

    /// What those of weight 0 are in terms of the share symbols: for each layer of
    /// the group what each helper's is multiplied by. That is the solution for
    /// shares that are 1 for one helper and 0 for the others.
    pub fn multipliers(&self, layers: &[usize]) -> Vec<Vec<F::Symbol>> {
        let equation = |w: usize| -> Equation<F> {
            let t = self.numbers.size * w;
            let of_helper = |&(_, rack): &(usize, usize)| self.coefficient(rack, layers[0], t);
            let right = self.helpers.iter().map(of_helper).map(F::negate);
            self.unknown_part(layers, t).chain(right).collect()
        };
        let equations = (0..self.numbers.rack_checks).map(equation).collect();
        let mut solved = solve_many::<F>(equations, self.unknowns())
            .expect("R checks in R unknowns have a solution");
        solved.truncate(layers.len());
        solved
    }

    fn unknowns(&self) -> usize {
        self.numbers.base + self.silent.len()
    }

    /// What check t multiplies the unknowns of a group by.
    fn unknown_part<'a>(
        &'a self,
        layers: &'a [usize],
        t: usize,
    ) -> impl Iterator<Item = F::Symbol> + 'a {
        let of_host = move |&layer: &usize| self.coefficient(self.host, layer, t);
        let of_silent = move |&rack: &usize| self.coefficient(rack, layers[0], t);
        layers
            .iter()
            .map(of_host)
            .chain(self.silent.iter().map(of_silent))
    }

    /// What check t = u·w + m multiplies a rack's sum of weight m in a layer by:
    /// there a tray's coefficient is that of place 0 times its weight. That of a
    /// rack that isn't the host is the same in all layers of a group.
    fn coefficient(&self, rack: usize, layer: usize, t: usize) -> F::Symbol {
        self.checks.coefficient(rack * self.numbers.size, layer, t)
    }

    /// The symbol for a group in share m of the helper at this place of the
    /// list.
    fn share_symbol(&self, helper: usize, m: usize, group: usize) -> F::Symbol {
        self.given.shares[(helper * self.lost.len() + m) * self.numbers.groups + group]
    }

    /// The lost symbols of a layer: those that give the host rack's weighted
    /// sums, m = 0 first, with the symbols of its sound trays.
    pub fn lost_symbols(&self, layer: usize, sums: &[F::Symbol]) -> Vec<F::Symbol> {
        let sound: Vec<usize> = (0..self.numbers.size)
            .filter(|place| !self.lost.contains(place))
            .collect();
        let equation = |(m, &sum): (usize, &F::Symbol)| -> Equation<F> {
            let of_lost = self.lost.iter().map(|&place| self.weights[m][place]);
            let of_sound = sound.iter().map(|&place| {
                let symbol = self.given.host[place * self.numbers.layers + layer];
                F::multiply(self.weights[m][place], symbol)
            });
            let right = F::subtract(sum, F::sum(of_sound));
            of_lost.chain([right]).collect()
        };
        solve::<F>(sums.iter().enumerate().map(equation).collect(), sums.len())
            .expect("e sums in e unknowns have a solution")
    }
}
