//! The calls that are timed, one entry each.

use crate::filled::Filled;
use crate::symbol::Symbol;
use crate::version::Version;
use gesarumbo::{Layout, Rack, Tested, Tray};

/// A call with one buffer: what it holds before and after, and how a version does it.
pub struct Call<S: 'static> {
    pub name: &'static str,
    pub before: fn(&Filled<S>) -> Vec<S>,
    pub run: fn(&dyn Version<S>, &Filled<S>, &mut [S]),
    pub after: fn(&Filled<S>) -> Vec<S>,
}

/// The plain repair, and the two of a layout with E = 1: from right shares, and from one that is
/// wrong.
pub const REPAIR: &str = "repair";
pub const CORRECTING: [&str; 2] = ["correct-right", "correct-wrong"];

impl<S: Symbol> Call<S> {
    /// The calls of a layout: which repairs there are goes by its E.
    pub fn of(layout: Layout) -> impl Iterator<Item = Call<S>> {
        let fits = move |call: &Call<S>| match layout.errors {
            0 => !CORRECTING.contains(&call.name),
            _ => call.name != REPAIR,
        };
        Call::ALL.into_iter().filter(fits)
    }

    /// The call of this name, if there is one.
    pub fn named(name: &str) -> Option<Call<S>> {
        Call::ALL.into_iter().find(|call| call.name == name)
    }

    pub const ALL: [Call<S>; 11] = [
        Call {
            name: "store",
            before: |f| cleared(f.codeword.len()),
            run: |version, f, codeword| version.store(&f.numbers, &f.data, codeword),
            after: |f| f.codeword.clone(),
        },
        Call {
            name: "test",
            before: |f| f.codeword.clone(),
            run: |version, f, codeword| {
                assert_eq!(version.test(&f.numbers, codeword), Tested::Sound)
            },
            after: |f| f.codeword.clone(),
        },
        Call {
            name: "walk",
            before: |f| f.codeword.clone(),
            run: |version, f, codeword| assert_eq!(version.walk(&f.numbers, codeword), 0),
            after: |f| f.codeword.clone(),
        },
        Call {
            name: "recover-1",
            before: |f| without(f, &[f.lost]),
            run: |version, f, codeword| assert!(version.recover(&f.numbers, codeword, &[f.lost])),
            after: |f| f.codeword.clone(),
        },
        Call {
            name: "recover-r",
            before: |f| without(f, &first_trays(f)),
            run: |version, f, codeword| {
                assert!(version.recover(&f.numbers, codeword, &first_trays(f)))
            },
            after: |f| f.codeword.clone(),
        },
        share_call(
            "share-first",
            |version, f, share| share_for(version, f, f.first_rack(), share),
            |f| f.share_for(f.first_rack()),
        ),
        share_call(
            "share-middle",
            |version, f, share| share_for(version, f, f.host, share),
            |f| f.share_for(f.host),
        ),
        share_call(
            "share-last",
            |version, f, share| share_for(version, f, f.last_rack(), share),
            |f| f.share_for(f.last_rack()),
        ),
        Call {
            name: REPAIR,
            before: |f| cleared(f.numbers.layers),
            run: |version, f, spare| {
                let host = f.rack(f.host);
                version.repair(&f.numbers, f.lost, &f.helpers, &f.shares, host, spare);
            },
            after: |f| f.tray(f.lost).to_vec(),
        },
        Call {
            name: CORRECTING[0],
            before: |f| cleared(f.numbers.layers),
            run: |version, f, spare| correct(version, f, &f.shares, None, spare),
            after: |f| f.tray(f.lost).to_vec(),
        },
        Call {
            name: CORRECTING[1],
            before: |f| cleared(f.numbers.layers),
            run: |version, f, spare| correct(version, f, &f.with_stale, Some(f.stale), spare),
            after: |f| f.tray(f.lost).to_vec(),
        },
    ];
}

/// A call for a helper's share, which is written to a cleared buffer.
const fn share_call<S: Symbol>(
    name: &'static str,
    run: fn(&dyn Version<S>, &Filled<S>, &mut [S]),
    after: fn(&Filled<S>) -> Vec<S>,
) -> Call<S> {
    Call {
        name,
        before: |f| cleared(f.numbers.groups),
        run,
        after,
    }
}

/// A buffer that is to be written, as it is before.
fn cleared<S: Symbol>(length: usize) -> Vec<S> {
    vec![S::default(); length]
}

/// The share of a helper for a host rack. Which layers follow one another in it depends on the host.
fn share_for<S: Symbol>(version: &dyn Version<S>, filled: &Filled<S>, host: Rack, share: &mut [S]) {
    let helper = filled.helper_of(host);
    version.share(&filled.numbers, host, helper, filled.rack(helper), share);
}

/// The repair from shares of which one may be wrong, which names this rack.
fn correct<S: Symbol>(
    version: &dyn Version<S>,
    filled: &Filled<S>,
    shares: &[S],
    rack: Option<Rack>,
    spare: &mut [S],
) {
    let (numbers, host) = (&filled.numbers, filled.rack(filled.host));
    let named = version.correct(numbers, filled.lost, &filled.helpers, shares, host, spare);
    assert_eq!(named, rack);
}

/// As many trays as may be erased: the first ones.
fn first_trays<S>(filled: &Filled<S>) -> Vec<Tray> {
    (0..filled.numbers.checks as u32).map(Tray::new).collect()
}

/// The codeword with some trays cleared.
fn without<S: Symbol>(filled: &Filled<S>, erased: &[Tray]) -> Vec<S> {
    let mut codeword = filled.codeword.clone();
    let layers = filled.numbers.layers;
    for tray in erased {
        codeword[tray.number() as usize * layers..][..layers].fill(S::default());
    }
    codeword
}

impl<S: Symbol> Call<S> {
    /// Asserts that every version writes the same.
    pub fn check(&self, versions: &[Box<dyn Version<S>>], filled: &Filled<S>) {
        let after = (self.after)(filled);
        for version in versions {
            let mut buffer = (self.before)(filled);
            (self.run)(version.as_ref(), filled, &mut buffer);
            assert!(
                buffer == after,
                "{} by {} differs in {}",
                self.name,
                version.name(),
                filled.numbers.layout
            );
        }
    }
}
