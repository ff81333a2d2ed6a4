//! Repairing a lost tray of many codewords, whole or a piece.

use super::super::repair::{self, library_answer};
use super::super::{library_layout, reference_layout, Call, Looks};
use super::{part, whole, Batch, MANY};
use crate::answer::Answer;
use crate::cabinet::Cabinet;
use crate::field::{in_field, Symbol};
use crate::given::Given;
use crate::inputs::{Inputs, Kind, Value};
use crate::pair::for_one;
use crate::random::Random;
use crate::source::Source;

pub const BATCH: Batch = Batch {
    many: &CALL,
    one: &repair::CALL,
    draw,
    numbers: |many, of_zeros, _| {
        let [groups, crossed, remaining] = of_zeros.numbers[..] else {
            panic!("a repair answers three numbers");
        };
        let many = i128::from(many);
        vec![groups, crossed * many, remaining * many]
    },
};

pub const CALL: Call = Call {
    name: "repair_batch",
    shape: &[
        Kind::Layout,
        Kind::Wide,
        Kind::Small,
        Kind::List,
        Kind::Symbols,
        Kind::Symbols,
        Kind::Symbols,
        Kind::Wide,
        Kind::Wide,
    ],
    errors: &[0],
    grounds: &[1, 2, 3, 4, 5, 6, 7],
    looks: Looks::AtSome(looks),
    example: |source, cabinet| BATCH.example(source, cabinet),
    library,
    reference,
};

/// As the repair of one codeword does.
fn looks(inputs: &Inputs, at: usize, place: usize) -> bool {
    let many = inputs.wide(MANY) as usize;
    let own = part(inputs, place % many);
    repair::looks(&own, &[own.small(1)], at - 1, place / many)
}

/// Any symbols, or multiples of the shares and sound trays of one codeword.
fn draw(source: &mut Source, cabinet: &Cabinet, many: usize) -> Inputs {
    let random = &mut source.random;
    let lost = cabinet.lost(random, 1);
    let given = Given::draw(random, cabinet, lost);
    let like = given.some_piece(random);
    let [first, budget] = [6, 7].map(|at| like.wide(at));
    let any = random.one_in(2);
    let mut one = || {
        let own = if any {
            other(random, &given)
        } else {
            multiple(random, &given)
        };
        let spare = own.spare(random);
        own.inputs(random, &spare, first, budget)
    };
    let parts: Vec<Inputs> = (0..many).map(|_| one()).collect();
    let mut whole = whole(&like, &parts);
    // One tray is lost.
    let single = for_one(&like).expect("one is lost");
    whole.values[MANY + 1] = Value::Small(single.small(1));
    whole
}

/// The same repair of any symbols.
fn other(random: &mut Random, given: &Given) -> Given {
    let field = given.cabinet.field;
    let mut any = |symbols: &[Symbol]| random.symbols(field, symbols.len());
    Given {
        shares: any(&given.shares),
        host: any(&given.host),
        ..given.clone()
    }
}

/// The same repair of a multiple of all symbols.
fn multiple(random: &mut Random, given: &Given) -> Given {
    let field = given.cabinet.field;
    let factor = random.nonzero(field);
    let times = |symbols: &[Symbol]| -> Vec<Symbol> {
        let multiply = |&symbol: &Symbol| field.multiply(factor, symbol);
        symbols.iter().map(multiply).collect()
    };
    Given {
        shares: times(&given.shares),
        host: times(&given.host),
        ..given.clone()
    }
}

/// The inputs without the number of codewords, buffers as they are.
fn without_many(inputs: &Inputs) -> Inputs {
    let mut others = inputs.clone();
    others.values.remove(MANY);
    others
}

fn library(inputs: &Inputs) -> Answer {
    let (layout, many) = (library_layout(inputs), inputs.wide(MANY) as usize);
    let others = without_many(inputs);
    let lost = gesarumbo::Tray::new(others.small(1));
    let [first, budget] = [6, 7].map(|at| others.wide(at));
    in_field!(
        inputs.field,
        library_answer::<F>(&others, |helpers, shares, host, spare| {
            library::repair_batch(
                layout, many, lost, helpers, shares, host, spare, first, budget,
            )
        })
    )
}

fn reference(inputs: &Inputs) -> Answer {
    in_field!(inputs.field, reference_answer::<F>(inputs))
}

fn reference_answer<F: reference::Field>(inputs: &Inputs) -> Answer {
    let (layout, many) = (reference_layout::<F>(inputs), inputs.wide(MANY));
    let others = without_many(inputs);
    let racks = others.list(2).iter().copied();
    let helpers: Vec<reference::Rack> = racks.map(reference::Rack).collect();
    let [shares, host, spare] =
        [repair::SHARES, repair::HOST, repair::SPARE].map(|at| others.given::<F>(at));
    let given = reference::Given {
        lost: reference::Tray(others.small(1)),
        helpers: &helpers,
        shares: &shares,
        host: &host,
    };
    let [first, budget] = [6, 7].map(|at| others.wide(at));
    let repaired = reference::repair_batch(layout, many, given, &spare, first, budget);
    let after = repaired.as_ref().ok().map(|done| done.spare.clone());
    Answer::new(repaired.map(|done| [done.groups, done.crossed, done.remaining].map(i128::from)))
        .lent(
            others.field,
            others.symbols(repair::SPARE),
            after.as_deref(),
        )
}
