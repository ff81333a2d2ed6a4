//! The comparison itself, and what is counted of it.

use crate::answer::Answer;
use crate::calls::{calls, groups, Call, Group, Looks};
use crate::field::Field;
use crate::inputs::Inputs;
use crate::source::EITHER;
use std::collections::BTreeMap;

/// So many differences are written out, and so much of each case.
const SHOWN: u64 = 20;
const SHOWN_LENGTH: usize = 2000;

#[derive(Default)]
pub struct Run {
    /// Calls compared, by field, call, number E and ground; every E above 1 is
    /// counted as 2.
    counts: BTreeMap<(Field, &'static str, u32, u32), u64>,
    /// Numbers that are no symbols, by call and whether it looks at them.
    large: BTreeMap<(&'static str, bool), u64>,
    pub compared: u64,
    pub claims: u64,
    pub differing: u64,
}

impl Run {
    /// Puts a call to both programs and compares; gives the library's answer.
    pub fn compare(&mut self, call: &Call, inputs: &Inputs) -> Answer {
        let answer = (call.library)(inputs);
        let expected = (call.reference)(inputs).to_string();
        self.count(call, inputs, &answer);
        self.judge(call, inputs, &answer, &expected, "the second program");
        answer
    }

    /// Puts a vector to both programs and compares each with its text.
    pub fn replay(&mut self, call: &Call, inputs: &Inputs, expected: &str) {
        let answer = (call.library)(inputs);
        self.count(call, inputs, &answer);
        self.judge(call, inputs, &answer, expected, "the vector");
        let second = (call.reference)(inputs).to_string();
        self.require(second == expected, || {
            let line = shown(&format!("{} {inputs}", call.name));
            format!(
                "{line}\n  the second program: {}\n  the vector: {}",
                shown(&second),
                shown(expected)
            )
        });
    }

    fn count(&mut self, call: &Call, inputs: &Inputs, answer: &Answer) {
        self.compared += 1;
        let errors = inputs.errors().min(2);
        let met = (inputs.field, call.name, errors, answer.refusal);
        *self.counts.entry(met).or_default() += 1;
    }

    /// Counts a number that is no symbol, put where a call looks or does not.
    pub fn count_large(&mut self, call: &Call, looked_at: bool) {
        *self.large.entry((call.name, looked_at)).or_default() += 1;
    }

    fn judge(&mut self, call: &Call, inputs: &Inputs, answer: &Answer, expected: &str, by: &str) {
        let text = answer.to_string();
        self.require(text == expected && answer.spoilt.is_empty(), || {
            let line = shown(&format!("{} {inputs}", call.name));
            let [text, expected] = [&text, expected].map(shown);
            format!(
                "{line}\n  the library: {text}\n  {by}: {expected}\n  changed: {:?}",
                answer.spoilt
            )
        });
    }

    /// A claim about calls that were compared.
    pub fn claim(&mut self, holds: bool, words: impl FnOnce() -> String) {
        self.claims += 1;
        self.require(holds, words);
    }

    /// Counts a difference and writes it out.
    pub fn require(&mut self, holds: bool, words: impl FnOnce() -> String) {
        if !holds {
            self.differing += 1;
            if self.differing <= SHOWN {
                println!("DIFFERS: {}", words());
            }
        }
    }

    /// Requires that each call of each field and of the box was done and met each of
    /// its grounds, with each E that it is for, and ground 1 with the other; and that
    /// numbers which are no symbols stood where it looks and where it doesn't.
    pub fn require_grounds(&mut self) {
        for group in groups() {
            for call in &group.calls {
                for (errors, ground) in due(&group, call) {
                    let (of, name) = (&group.name, call.name);
                    let key = (group.field, name, errors, ground);
                    let met = self.counts.contains_key(&key);
                    self.require(met, || {
                        format!("{of}: {name} with E = {errors} never answered {ground}")
                    });
                }
            }
        }
        for call in calls(Field::Of257).iter().filter(|call| call.has_symbols()) {
            let kinds: &[bool] = match call.looks {
                Looks::AtAll => &[true],
                Looks::AtNone => &[false],
                Looks::AtSome(_) => &[true, false],
            };
            for looked_at in kinds {
                let met = self.large.contains_key(&(call.name, *looked_at));
                let name = call.name;
                self.require(met, || format!("{name}: no number above 256, {looked_at}"));
            }
        }
    }

    /// The calls of each field and of the box by ground, a line each.
    pub fn table(&self) -> String {
        groups().map(|group| self.table_of(&group)).concat()
    }

    fn table_of(&self, group: &Group) -> String {
        let lines = |call: &&'static Call| {
            let of_errors = |errors| self.line(group.field, call, errors);
            let large = self.large_cell(group.field, call);
            let large = large.map(|cell| format!("  {:<18} {cell}\n", ""));
            (0..=2)
                .filter_map(of_errors)
                .chain(large)
                .collect::<String>()
        };
        let lines: String = group.calls.iter().map(lines).collect();
        format!("{}\n{lines}", group.name)
    }

    /// What a call answered with this E, if it was put.
    fn line(&self, field: Field, call: &Call, errors: u32) -> Option<String> {
        let counts = self.counts.iter();
        let own = counts
            .filter(|((of, name, with, _), _)| (*of, *name, *with) == (field, call.name, errors));
        let cells = own.map(|((.., ground), count)| match ground {
            0 => format!("done {count}"),
            ground => format!("ground {ground} {count}"),
        });
        let cells: Vec<String> = cells.collect();
        let name = match errors {
            0 => call.name,
            1 => "  E = 1",
            _ => "  E above 1",
        };
        (!cells.is_empty()).then(|| format!("  {name:<18} {}\n", cells.join(", ")))
    }

    /// How many numbers that are no symbols were put where the call looks, and
    /// where it doesn't.
    fn large_cell(&self, field: Field, call: &Call) -> Option<String> {
        let count = |looked_at| self.large.get(&(call.name, looked_at)).copied();
        let [seen, unseen] = [true, false].map(|looked_at| count(looked_at).unwrap_or(0));
        let any = field == Field::Of257 && seen + unseen > 0;
        any.then(|| format!("above 256: {seen} looked at, {unseen} not"))
    }

    pub fn summary(&self) -> String {
        format!(
            "{} calls compared, {} claims checked, {} differing",
            self.compared, self.claims, self.differing
        )
    }
}

/// The answers that a call must have given, each with a number E.
pub fn due(group: &Group, call: &Call) -> Vec<(u32, u32)> {
    let grounds = call.grounds_in(group.field);
    let of_errors = |&errors: &u32| {
        let own = [0].iter().chain(&grounds);
        own.map(|&ground| (errors, ground)).collect::<Vec<_>>()
    };
    let mut due: Vec<(u32, u32)> = call.errors.iter().flat_map(of_errors).collect();
    if grounds.contains(&1) {
        let others = EITHER.iter().filter(|errors| !call.errors.contains(errors));
        due.extend(others.map(|&errors| (errors, 1)));
    }
    due
}

/// The beginning of a long text.
fn shown(text: &str) -> String {
    match text.get(..SHOWN_LENGTH) {
        Some(start) => format!("{start} .."),
        None => text.to_string(),
    }
}
