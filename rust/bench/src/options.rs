//! The command line.

use crate::symbol::Symbol;
use gesarumbo::Layout;

pub const USAGE: &str = "\
usage: bench [--rounds N] [--quick]
           times every call by every version, and prints a table for each field
       bench --instructions [--quick]
           counts the instructions of every call by every version with valgrind, and prints a
           table for each field; quick: of storing the first layout, and fails above twice the
           ordinary version's or above the field's own limit
       bench --isal [--instructions] [--rounds N]
           the same for storing in the field of 256 by the library and by Intel's ISA-L, where that
           is installed: plain Reed-Solomon, another code of as many trays and bytes
       bench --batch [--instructions] [--rounds N]
           the same for the calls for many codewords, each against as many calls for one
       bench --checksum [--instructions] [--rounds N]
           the same for the checksum of 64 bytes to 1 MB
       bench [--batch] --count CALL VERSION [--rounds N]
           does one call N times, with --batch once, and prints nothing
each for one field only: --field 256 or --field 257
and for one layout only, in the field of 256 if none is named: --layout B u k d, and --errors 1
where one share may be wrong
calls: store, test, walk, recover-1, recover-r, share-first, share-middle, share-last, repair; with
--errors 1 correct-right and correct-wrong in place of repair; checksum-N of N bytes
calls for many codewords: store-batch, share-batch, repair-batch
versions in the field of 256: library, log-exp, product-table; isal-portable and isal-dispatched of
store alone
versions in the field of 257: library, remainder, delayed
versions of the calls for many codewords: batch, single (which does one codeword)
versions of checksum-N: library, nibble-tables, one-table, eight-tables";

/// The word that asks for one call only.
pub const COUNT: &str = "--count";
/// The word that asks for the calls for many codewords.
pub const BATCH: &str = "--batch";
/// The word that asks for one field only.
pub const FIELD: &str = "--field";
const LAYOUT: &str = "--layout";
const ERRORS: &str = "--errors";

/// What is asked for.
pub struct Options {
    /// One field, by its number of symbols; none for both.
    pub field: Option<u32>,
    /// One layout; none for the usual ones.
    pub layout: Option<Layout>,
    pub rounds: usize,
    pub quick: bool,
    /// ISA-L in place of ordinary Rust.
    pub isal: bool,
    /// The calls for many codewords in place of those for one.
    pub batch: bool,
    /// The checksum in place of the calls of a layout.
    pub checksum: bool,
    pub what: What,
}

pub enum What {
    Times,
    Instructions,
    /// A call and a version.
    Count(String, String),
}

const ROUNDS: usize = 200;
const QUICK_ROUNDS: usize = 5;
const COUNT_ROUNDS: usize = 10;

/// Reads the words of the command line; none where they make no sense.
pub fn read(mut words: impl Iterator<Item = String>) -> Option<Options> {
    let (mut field, mut layout, mut errors) = (None, None, 0);
    let (mut rounds, mut quick, mut isal, mut what) = (None, false, false, What::Times);
    let (mut batch, mut checksum) = (false, false);
    while let Some(word) = words.next() {
        match word.as_str() {
            "--rounds" => rounds = Some(words.next()?.parse().ok().filter(|&n| n > 0)?),
            "--quick" => quick = true,
            "--isal" => isal = true,
            BATCH => batch = true,
            "--checksum" => checksum = true,
            "--instructions" => what = What::Instructions,
            COUNT => what = What::Count(words.next()?, words.next()?),
            FIELD => field = Some(words.next()?.parse().ok().filter(is_field)?),
            LAYOUT => layout = Some(read_layout(&mut words)?),
            ERRORS => errors = words.next()?.parse().ok()?,
            _ => return None,
        }
    }
    let usual = match what {
        What::Count(..) => COUNT_ROUNDS,
        _ if quick => QUICK_ROUNDS,
        _ => ROUNDS,
    };
    let one = layout.is_some() || isal || matches!(what, What::Count(..));
    let field = field.or(one.then_some(u8::COUNT));
    if isal && field != Some(u8::COUNT) {
        return None;
    }
    Some(Options {
        field,
        layout: layout.map(|layout| Layout { errors, ..layout }),
        rounds: rounds.unwrap_or(usual),
        quick,
        isal,
        batch,
        checksum,
        what,
    })
}

fn is_field(number: &u32) -> bool {
    [u8::COUNT, u16::COUNT].contains(number)
}

/// The words that ask for one layout only.
pub fn layout_words(layout: Layout) -> [String; 7] {
    let [b, u, k, d] = [layout.racks, layout.size, layout.dimension, layout.helpers];
    [
        LAYOUT.to_string(),
        b.to_string(),
        u.to_string(),
        k.to_string(),
        d.to_string(),
        ERRORS.to_string(),
        layout.errors.to_string(),
    ]
}

fn read_layout(words: &mut impl Iterator<Item = String>) -> Option<Layout> {
    let mut next = || words.next()?.parse().ok();
    Some(Layout::new(next()?, next()?, next()?, next()?))
}
