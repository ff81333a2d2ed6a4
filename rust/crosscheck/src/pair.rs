//! The calls for lost trays of one rack: each has a form for one tray and one
//! for several.

use crate::calls::{repair, repair_many, share, share_add, share_add_many, share_many, Call};
use crate::inputs::{Inputs, Value};
use crate::random::Random;

#[derive(Clone, Copy)]
pub struct Pair {
    pub one: &'static Call,
    pub many: &'static Call,
}

pub const SHARE: Pair = Pair {
    one: &share::CALL,
    many: &share_many::CALL,
};
pub const SHARE_ADD: Pair = Pair {
    one: &share_add::CALL,
    many: &share_add_many::CALL,
};
pub const REPAIR: Pair = Pair {
    one: &repair::CALL,
    many: &repair_many::CALL,
};
pub const PAIRS: [Pair; 3] = [SHARE, SHARE_ADD, REPAIR];

impl Pair {
    /// One of the two forms.
    pub fn any(&self, random: &mut Random) -> &'static Call {
        random.pick(&[self.one, self.many])
    }

    /// The form for several, or at random the one for one tray where one is
    /// lost; that one where E is 1 and the form for several is not to be had.
    pub fn either(&self, random: &mut Random, inputs: Inputs) -> (&'static Call, Inputs) {
        match for_one(&inputs) {
            Some(same) if inputs.errors() == 1 || random.one_in(2) => (self.one, same),
            _ => (self.many, inputs),
        }
    }
}

/// The inputs of the form for several as those of the form for one tray, none
/// where not one is lost. The count is left out, and the list is its tray.
pub fn for_one(inputs: &Inputs) -> Option<Inputs> {
    let mut same = inputs.clone();
    match same.values.remove(1) {
        Value::Small(1) => {}
        Value::List(lost) if lost.len() == 1 => same.values.insert(1, Value::Small(lost[0])),
        _ => return None,
    }
    Some(same)
}

#[cfg(test)]
mod tests {
    use super::*;
    use crate::field::Field;

    fn one_of(second: Value) -> Option<Vec<Value>> {
        let inputs = Inputs {
            field: Field::Of256,
            values: vec![Value::Layout([4, 3, 6, 3, 0]), second, Value::Small(9)],
        };
        for_one(&inputs).map(|same| same.values[1..].to_vec())
    }

    #[test]
    fn one_lost_tray_is_said_without_a_list() {
        assert_eq!(one_of(Value::Small(1)), Some(vec![Value::Small(9)]));
        let tray = Some(vec![Value::Small(7), Value::Small(9)]);
        assert_eq!(one_of(Value::List(vec![7])), tray);
        for second in [Value::Small(0), Value::Small(2), Value::List(vec![])] {
            assert_eq!(one_of(second), None);
        }
        assert_eq!(one_of(Value::List(vec![7, 8])), None);
    }
}
