//! The calls: those over either field, one file and one entry of [`COMMON`],
//! [`TRAYS`] or [`batch::batches`] each, and those of the box and the checksum, which
//! belong to neither.

pub mod batch;
pub mod card_print;
pub mod card_repair;
pub mod card_test;
pub mod checksum;
pub mod copy_image;
pub mod gather;
pub mod gather_rack;
pub mod margin;
pub mod measure;
pub mod read_image;
pub mod read_part;
pub mod recover;
pub mod recover_correcting;
pub mod repair;
pub mod repair_correcting;
pub mod repair_many;
pub mod share;
pub mod share_add;
pub mod share_add_many;
pub mod share_many;
pub mod sixteen;
pub mod states;
pub mod store;
pub mod test;
pub mod test_kept;
pub mod walk;
pub mod walk_reset;
pub mod write_image;

use crate::answer::Answer;
use crate::cabinet::Cabinet;
use crate::field::{Field, Symbol, FIELDS};
use crate::inputs::{Inputs, Kind, Value};
use crate::random::Random;
use crate::source::Source;

pub struct Call {
    /// Its name in the vector format.
    pub name: &'static str,
    /// The kinds of its inputs.
    pub shape: &'static [Kind],
    /// The numbers E of the layouts that it is for: any other gets 1. A call that
    /// has no layout is counted with 0.
    pub errors: &'static [u32],
    /// The grounds that can apply to it, in the order they are tried, but for
    /// that of a number above 256.
    pub grounds: &'static [u32],
    /// Which of the numbers it looks at that are lent as symbols.
    pub looks: Looks,
    /// Random inputs over a layout: such as are done, or refused for what the
    /// buffers hold or for how many trays are lost.
    pub example: fn(&mut Source, &Cabinet) -> Inputs,
    /// What the library answers, through the wrapper.
    pub library: fn(&Inputs) -> Answer,
    /// What the second program answers.
    pub reference: fn(&Inputs) -> Answer,
}

/// The numbers lent as symbols that a call looks at: of these, one that is no
/// symbol is refused.
pub enum Looks {
    AtAll,
    AtNone,
    /// By the inputs, the number of the one that holds them, and the place there.
    /// The inputs' lengths and numbers must be right.
    AtSome(fn(&Inputs, usize, usize) -> bool),
}

impl Looks {
    pub fn at(&self, inputs: &Inputs, input: usize, place: usize) -> bool {
        match self {
            Looks::AtAll => true,
            Looks::AtNone => false,
            Looks::AtSome(looks) => looks(inputs, input, place),
        }
    }
}

/// The calls that both fields have alike.
const COMMON: [&Call; 19] = [
    &measure::CALL,
    &test::CALL,
    &store::CALL,
    &recover::CALL,
    &share::CALL,
    &share_add::CALL,
    &repair::CALL,
    &share_many::CALL,
    &share_add_many::CALL,
    &repair_many::CALL,
    &repair_correcting::CALL,
    &card_print::CALL,
    &card_test::CALL,
    &card_repair::CALL,
    &read_part::CALL,
    &write_image::CALL,
    &margin::CALL,
    &walk_reset::CALL,
    &walk::CALL,
];

/// The calls from trays to records, which both fields have alike.
const TRAYS: [&Call; 5] = [
    &recover_correcting::CALL,
    &test_kept::CALL,
    &states::CALL,
    &gather::CALL,
    &gather_rack::CALL,
];

impl Call {
    /// Whether it is over a layout, as all are but those of the box and the checksum.
    pub fn has_layout(&self) -> bool {
        self.shape.first() == Some(&Kind::Layout)
    }

    /// Whether symbols are lent to it.
    pub fn has_symbols(&self) -> bool {
        self.shape.contains(&Kind::Symbols)
    }

    /// The grounds that can apply to it in a field.
    pub fn grounds_in(&self, field: Field) -> Vec<u32> {
        let mut grounds = self.grounds.to_vec();
        let looks = !matches!(self.looks, Looks::AtNone);
        if field == Field::Of257 && looks && !grounds.contains(&3) {
            grounds.push(3);
        }
        grounds
    }
}

/// All calls of a field.
pub fn calls(field: Field) -> Vec<&'static Call> {
    let mut calls = documents(field);
    calls.extend(TRAYS);
    calls.extend(batch::calls(field));
    calls
}

/// The calls of a field that are documents 01 and 02's.
fn documents(field: Field) -> Vec<&'static Call> {
    let read_image = match field {
        Field::Of256 => &read_image::CALL,
        Field::Of257 => &copy_image::CALL,
    };
    COMMON.into_iter().chain([read_image]).collect()
}

/// Calls that are counted together, or written to a file of vectors.
pub struct Group {
    pub name: String,
    /// The field of their inputs.
    pub field: Field,
    pub calls: Vec<&'static Call>,
}

/// The calls of each field, those of the box, and the checksum.
pub fn groups() -> [Group; 4] {
    let [of_256, of_257] = FIELDS.map(|field| group_of(field, calls(field)));
    [of_256, of_257, of_box(), of_checksum()]
}

/// A file of drawn vectors: its name, its calls, how many cases it has for each
/// ground of a call and where it is done, and how long the inputs of one may be.
pub struct Drawn {
    pub name: String,
    pub group: Group,
    pub refused: usize,
    pub done: usize,
    pub longest: usize,
}

/// The longest inputs of a case, in most files and in those for many codewords.
const LONGEST: usize = 1_500;
const LONGEST_OF_MANY: usize = 2_500;

/// The files of drawn vectors: those of the documents' calls, and, with more cases,
/// those of the calls that came after them.
pub fn drawn() -> Vec<Drawn> {
    let file = |name: &str, group, [refused, done]: [usize; 2]| Drawn {
        name: name.to_string(),
        group,
        refused,
        done,
        longest: LONGEST,
    };
    let mut files = vec![];
    for field in FIELDS {
        let (symbols, trays) = (field.symbols(), TRAYS.to_vec());
        let documents = group_of(field, documents(field));
        files.push(file(&format!("{symbols}"), documents, [2, 2]));
        let trays = group_of(field, trays);
        files.push(file(&format!("trays-{symbols}"), trays, [10, 60]));
        let batches = group_of(field, batch::calls(field));
        files.push(Drawn {
            longest: LONGEST_OF_MANY,
            ..file(&format!("batches-{symbols}"), batches, [4, 24])
        });
    }
    files.push(file("box", of_box(), [2, 2]));
    files.push(file("checksum", of_checksum(), [0, 300]));
    files
}

fn group_of(field: Field, calls: Vec<&'static Call>) -> Group {
    Group {
        name: format!("field of {}", field.symbols()),
        field,
        calls,
    }
}

fn of_box() -> Group {
    Group {
        name: "sixteen-tray box".to_string(),
        field: sixteen::FIELD,
        calls: sixteen::CALLS.to_vec(),
    }
}

fn of_checksum() -> Group {
    Group {
        name: "checksum".to_string(),
        field: checksum::FIELD,
        calls: vec![&checksum::CALL],
    }
}

/// The inputs of a call for one share: layout, host rack, the rack or tray that gives, its symbols
/// and the share.
const ONE_SHARE: &[Kind] = &[
    Kind::Layout,
    Kind::Small,
    Kind::Small,
    Kind::Symbols,
    Kind::Symbols,
];

/// Those of a call for several: the number of lost trays comes second.
const MANY_SHARES: &[Kind] = &[
    Kind::Layout,
    Kind::Small,
    Kind::Small,
    Kind::Small,
    Kind::Symbols,
    Kind::Symbols,
];

/// The inputs of a call for several shares.
pub fn many_shares(
    cabinet: &Cabinet,
    count: usize,
    host: u32,
    giver: u32,
    symbols: &[Symbol],
    shares: Vec<Symbol>,
) -> Inputs {
    cabinet.inputs([
        Value::Small(count as u32),
        Value::Small(host),
        Value::Small(giver),
        Value::Symbols(symbols.to_vec()),
        Value::Symbols(shares),
    ])
}

/// A number of lost trays: mostly one that a repair can do, at times none or one
/// more than that.
fn any_lost_count(random: &mut Random, cabinet: &Cabinet) -> usize {
    match random.below(16) {
        0 => 0,
        1 => cabinet.numbers.most_lost() + 1,
        _ => cabinet.lost_count(random),
    }
}

fn library_layout(inputs: &Inputs) -> gesarumbo::Layout {
    let [racks, size, dimension, helpers, errors] = inputs.layout();
    gesarumbo::Layout::with_errors(racks, size, dimension, helpers, errors)
}

fn reference_layout<F>(inputs: &Inputs) -> reference::Layout<F> {
    inputs.layout().into()
}
