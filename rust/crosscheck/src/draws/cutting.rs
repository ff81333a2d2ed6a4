//! The cutting claim: lists of repair calls over one spare, refused ones among
//! them and repairs by cards, looked at after every call.

use super::Draw;
use crate::cabinet::Cabinet;
use crate::calls::card_print::Place;
use crate::calls::repair::{budget, SPARE};
use crate::calls::{card_repair, Call};
use crate::crosscheck::Crosscheck;
use crate::field::Symbol;
use crate::given::Given;
use crate::inputs::{Inputs, Value};
use crate::pair;
use crate::source::{Source, EITHER};
use crate::spoil::spoil;

pub const DRAW: Draw = Draw {
    name: "cutting",
    gate: 4_000,
    short: 60,
    case,
};

/// The most calls in a list.
const MOST_CALLS: usize = 12;

/// A list of calls as far as it has come.
struct List {
    given: Given,
    /// What the spare held at first, and what one uncut call makes of it.
    at_first: Vec<Symbol>,
    uncut: Vec<Symbol>,
    spare: Vec<Symbol>,
    /// G, the number of groups done so far.
    done: u64,
    crossed: i128,
    remaining: i128,
}

fn case(all: &mut Crosscheck) {
    let cabinet = all.source.cabinet(&[0]);
    let mut list = List::start(all, &cabinet);
    list.check(all);
    for _ in 0..all.source.random.below(MOST_CALLS + 1) {
        if all.source.random.one_in(3) {
            list.refused_call(all);
        } else if list.may_go_by_card() && all.source.random.one_in(3) {
            list.card_call(all);
        } else {
            list.done_call(all);
        }
        list.check(all);
    }
}

impl List {
    /// The empty list.
    fn start(all: &mut Crosscheck, cabinet: &Cabinet) -> List {
        let random = &mut all.source.random;
        let count = cabinet.lost_count(random);
        let lost = cabinet.lost(random, count);
        let given = Given::draw(random, cabinet, lost);
        let at_first = given.spare(random);
        let groups = cabinet.numbers.groups;
        let (call, whole) = given.piece(random, &at_first, 0, groups as u64);
        let uncut = all.run.compare(call, &whole).symbols().to_vec();
        List {
            spare: at_first.clone(),
            at_first,
            uncut,
            done: 0,
            crossed: 0,
            remaining: given.symbols() * groups as i128,
            given,
        }
    }

    fn done_call(&mut self, all: &mut Crosscheck) {
        let left = self.given.cabinet.numbers.groups as u64 - self.done;
        let random = &mut all.source.random;
        let budget = if random.one_in(2) {
            random.below(left as usize / 4 + 2) as u64
        } else {
            budget(random, left)
        };
        let (call, piece) = self.given.piece(random, &self.spare, self.done, budget);
        let answer = all.run.compare(call, &piece);
        all.run.claim(answer.refusal == 0, || {
            format!("a good piece was refused: {piece}")
        });
        self.spare = answer.symbols().to_vec();
        self.done += budget.min(left);
        self.crossed += answer.numbers[1];
        self.remaining = answer.numbers[2];
    }

    /// Whether a card can do the next group: one tray is lost, and a group is left.
    fn may_go_by_card(&self) -> bool {
        let groups = self.given.cabinet.numbers.groups as u64;
        self.given.lost.len() == 1 && self.done < groups
    }

    /// The next group by its card, in place of the piece that does it alone.
    fn card_call(&mut self, all: &mut Crosscheck) {
        let place = Place {
            group: self.done,
            ..self.given.place()
        };
        let random = &mut all.source.random;
        let inputs = self
            .given
            .by_card(random, &self.spare, self.done, place.right());
        let answer = all.run.compare(&card_repair::CALL, &inputs);
        all.run.claim(answer.refusal == 0, || {
            format!("a right card was refused: {inputs}")
        });
        self.spare = answer.symbols().to_vec();
        self.done += 1;
        self.crossed += answer.numbers[1];
        self.remaining = answer.numbers[2];
    }

    fn refused_call(&mut self, all: &mut Crosscheck) {
        let (call, inputs) = refused(&mut all.source, &self.given.cabinet, &self.spare);
        let answer = all.run.compare(call, &inputs);
        all.run.claim(answer.refusal != 0, || {
            format!("a bad piece was not refused: {inputs}")
        });
        self.spare = answer.symbols().to_vec();
    }

    /// What must hold after every list.
    fn check(&self, all: &mut Crosscheck) {
        let expected = |at: usize| {
            let written = (self.given.group(at) as u64) < self.done;
            if written {
                self.uncut[at]
            } else {
                self.at_first[at]
            }
        };
        let spare: Vec<Symbol> = (0..self.at_first.len()).map(expected).collect();
        let symbols = self.given.symbols();
        let whole = symbols * self.given.cabinet.numbers.groups as i128;
        let holds = self.spare == spare
            && self.crossed == symbols * i128::from(self.done)
            && self.crossed + self.remaining == whole;
        all.run
            .claim(holds, || format!("a cut repair of {:?}", self.given));
    }
}

/// A call that is refused, over this spare and anything else, at times even
/// another layout.
fn refused(source: &mut Source, own: &Cabinet, spare: &[Symbol]) -> (&'static Call, Inputs) {
    loop {
        let other = source.random.one_in(4);
        let cabinet = if other {
            source.cabinet_of(own.field, EITHER)
        } else {
            *own
        };
        let call = match source.random.one_in(4) {
            true => &card_repair::CALL,
            false => pair::REPAIR.any(&mut source.random),
        };
        let mut inputs = (call.example)(source, &cabinet);
        let times = 1 + source.random.below(3);
        spoil(source, &cabinet, &mut inputs, times);
        inputs.values[SPARE] = Value::Symbols(spare.to_vec());
        if (call.reference)(&inputs).refusal != 0 {
            return (call, inputs);
        }
    }
}
