//! From the images of a codeword's trays, of which some are replaced by something
//! foreign and one may hold wrong symbols, to the codeword: gathered and recovered,
//! corrected, tested, and rack by rack repaired in pieces. What stands at a place
//! whose tray is not there has no effect.

use super::Draw;
use crate::answer::Answer;
use crate::cabinet::Cabinet;
use crate::calls::recover_correcting::spoil_tray;
use crate::calls::{gather, gather_rack, many_shares, margin, recover, recover_correcting};
use crate::calls::{repair_correcting, states, test_kept};
use crate::crosscheck::Crosscheck;
use crate::field::Symbol;
use crate::given::Given;
use crate::images::{self, Foreign, Kept, FOREIGN};
use crate::inputs::Value;
use crate::pair;
use crate::source::EITHER;

pub const DRAW: Draw = Draw {
    name: "trays to records",
    gate: 4_000,
    short: 60,
    case,
};

/// A codeword, what stands at the places, and the trays that are not there.
struct Stored {
    kept: Kept,
    codeword: Vec<Symbol>,
    images: Vec<u8>,
    missing: Vec<(u32, Foreign)>,
}

fn case(all: &mut Crosscheck) {
    let cabinet = all.source.cabinet(EITHER);
    let stored = stored(all, &cabinet);
    let gathered = gathered(all, &stored);
    recovered(all, &stored, &gathered);
    corrected(all, &stored);
    repaired(all, &stored);
}

/// Some trays, at most r, have gone, of any racks or of one: at the places of two of
/// them their images may stand exchanged, at the others anything foreign.
fn stored(all: &mut Crosscheck, cabinet: &Cabinet) -> Stored {
    let source = &mut all.source;
    let codeword = cabinet.codeword(&mut source.random);
    let kept = Kept {
        cabinet: *cabinet,
        volume: images::volume(&mut source.random),
    };
    let whole = kept.images(&codeword);
    let gone = match source.random.one_in(2) {
        true => {
            let count = cabinet.lost_count(&mut source.random);
            cabinet.lost(&mut source.random, count)
        }
        false => {
            let count = source.random.below(cabinet.numbers.checks + 1);
            source.random.some_of(count, cabinet.tray_numbers())
        }
    };
    let mut images = whole.clone();
    let mut missing = vec![];
    for &tray in &gone {
        let kind = source.random.pick(&FOREIGN);
        let image = kept.foreign(source, tray, kind);
        kept.put(&mut images, 0, tray, &image);
        missing.push((tray, kind));
    }
    if gone.len() >= 2 && source.random.one_in(3) {
        let length = kept.length();
        let image = |tray: u32| whole[tray as usize * length..][..length].to_vec();
        kept.put(&mut images, 0, gone[0], &image(gone[1]));
        kept.put(&mut images, 0, gone[1], &image(gone[0]));
        missing[0].1 = Foreign::Place;
        missing[1].1 = Foreign::Place;
    }
    Stored {
        kept,
        codeword,
        images,
        missing,
    }
}

/// The trays that are there are gathered and the others listed, whatever foreign
/// stands at their places; the states count the same trays.
fn gathered(all: &mut Crosscheck, stored: &Stored) -> Answer {
    let Kept { cabinet, volume } = stored.kept;
    let random = &mut all.source.random;
    let inputs = gather::inputs(random, &cabinet, volume, stored.images.clone());
    let answer = all.run.compare(&gather::CALL, &inputs);
    let gone: Vec<u32> = stored.missing.iter().map(|(tray, _)| *tray).collect();
    let mut due = stored.codeword.clone();
    gone.iter()
        .for_each(|&tray| due[cabinet.tray(tray)].fill(0));
    let (listed, rest) = answer.list().split_at(gone.len());
    let holds = answer.numbers == [gone.len() as i128]
        && answer.symbols() == due
        && listed == gone
        && rest == &inputs.list(4)[gone.len()..];
    all.run
        .claim(holds, || format!("gather {inputs}: {answer}"));

    // Something else that is foreign in the same places.
    let mut images = stored.images.clone();
    for &tray in &gone {
        let kind = all.source.random.pick(&FOREIGN);
        let image = stored.kept.foreign(&mut all.source, tray, kind);
        stored.kept.put(&mut images, 0, tray, &image);
    }
    let mut again = inputs.clone();
    again.values[2] = Value::Bytes(images);
    let same = all.run.compare(&gather::CALL, &again);
    all.run.claim(same == answer, || {
        format!("gather {again}: {same}, not {answer}")
    });
    counted(all, stored);
    answer
}

/// The states of the places, and the margin they have.
fn counted(all: &mut Crosscheck, stored: &Stored) {
    let Kept { cabinet, volume } = stored.kept;
    let lent = all.source.random.bytes(cabinet.numbers.trays);
    let inputs = states::inputs(&cabinet, volume, stored.images.clone(), lent);
    let found = all.run.compare(&states::CALL, &inputs).bytes().to_vec();
    let gone = |tray: u32| stored.missing.iter().find(|(own, _)| *own == tray);
    let right = |tray: u32, state: u8| match gone(tray) {
        None => state == reference::LIVE,
        Some((_, kind)) => match kind.state() {
            Some(due) => state == due,
            None => state != reference::LIVE,
        },
    };
    let mut places = (0..).zip(&found);
    let holds = places.all(|(tray, &state)| right(tray, state));
    all.run
        .claim(holds, || format!("states {inputs}: {found:?}"));
    let inputs = cabinet.inputs([Value::Bytes(found)]);
    let margin = all.run.compare(&margin::CALL, &inputs).numbers[0];
    let due = (cabinet.numbers.checks - stored.missing.len()) as i128;
    all.run
        .claim(margin == due, || format!("margin {inputs}: {margin}"));
}

/// What was gathered and is recovered is the codeword; a test of it finds nothing.
fn recovered(all: &mut Crosscheck, stored: &Stored, gathered: &Answer) {
    let cabinet = &stored.kept.cabinet;
    let missing = gathered.list()[..stored.missing.len()].to_vec();
    let inputs = cabinet.inputs([
        Value::Symbols(gathered.symbols().to_vec()),
        Value::List(missing),
    ]);
    let call = all
        .source
        .random
        .pick(&[&recover::CALL, &recover_correcting::CALL]);
    let answer = all.run.compare(call, &inputs);
    let kept = all.run.compare(&test_kept::CALL, &inputs);
    let whole = answer.refusal == 0 && answer.symbols() == stored.codeword;
    all.run.claim(whole && kept.numbers[0] == 1, || {
        format!("{} {inputs}: {answer}, {kept}", call.name)
    });
}

/// A live image of which holds wrong symbols, where two checks are left: the tray is
/// named, and the codeword comes back. With one left it is seen and refused.
fn corrected(all: &mut Crosscheck, stored: &Stored) {
    let Kept { cabinet, volume } = stored.kept;
    let left = cabinet.numbers.checks - stored.missing.len();
    let mut others = cabinet.tray_numbers();
    others.retain(|tray| stored.missing.iter().all(|(gone, _)| gone != tray));
    let random = &mut all.source.random;
    let rotten = random.pick(&others);
    let mut wrong = stored.codeword.clone();
    spoil_tray(&cabinet, random, &mut wrong, rotten);
    let mut images = stored.images.clone();
    let whole = stored.kept.images(&wrong);
    let length = stored.kept.length();
    let image = &whole[rotten as usize * length..][..length];
    stored.kept.put(&mut images, 0, rotten, image);
    let inputs = gather::inputs(random, &cabinet, volume, images);
    let gathered = all.run.compare(&gather::CALL, &inputs);
    let listed = gathered.list()[..gathered.numbers[0] as usize].to_vec();
    let inputs = cabinet.inputs([
        Value::Symbols(gathered.symbols().to_vec()),
        Value::List(listed),
    ]);
    let answer = all.run.compare(&recover_correcting::CALL, &inputs);
    let holds = match left {
        0 => answer.refusal == 0 && answer.numbers == [cabinet.numbers.trays as i128, 0],
        1 => answer.refusal == 8,
        _ => {
            answer.numbers == [i128::from(rotten), left as i128]
                && answer.symbols() == stored.codeword
        }
    };
    all.run.claim(holds, || {
        format!("tray {rotten}: recover_correcting {inputs}: {answer}")
    });
}

/// A rack whose missing trays shares can repair, with helpers that lack none: from
/// the racks as they are gathered, the codeword's trays, in two pieces, or all at
/// once with E = 1. A rack of which a missing tray is not said to be lost is refused.
fn repaired(all: &mut Crosscheck, stored: &Stored) {
    let cabinet = stored.kept.cabinet;
    let random = &mut all.source.random;
    let gone = stored.missing.iter().map(|(tray, _)| *tray);
    let hosts: Vec<u32> = gone.map(|tray| cabinet.rack_of(tray)).collect();
    let host = match hosts.is_empty() {
        true => return,
        false => random.pick(&hosts),
    };
    let lost = missing_of(stored, host);
    let mut helpers = cabinet.other_racks(host);
    helpers.retain(|&rack| missing_of(stored, rack).is_empty());
    let repairable = match cabinet.errors() {
        0 => cabinet.numbers.can_lose(lost.len()),
        _ => lost.len() == 1,
    };
    if !repairable || helpers.len() < cabinet.numbers.helpers {
        return;
    }
    let helpers = random.some_of(cabinet.numbers.helpers, helpers);
    let own = gathered_rack(all, stored, host, &lost);
    refused_rack(all, stored, host, &lost);
    let mut shares = vec![];
    for &helper in &helpers {
        let rack = gathered_rack(all, stored, helper, &[]);
        let random = &mut all.source.random;
        let noise = random.noise(cabinet.field, lost.len() * cabinet.numbers.groups);
        let inputs = many_shares(&cabinet, lost.len(), host, helper, &rack, noise);
        let (call, inputs) = pair::SHARE.either(random, inputs);
        shares.extend(all.run.compare(call, &inputs).symbols());
    }
    let given = Given {
        cabinet,
        lost,
        helpers,
        shares,
        host: own,
    };
    let spare = match cabinet.errors() {
        0 => in_two_pieces(all, &given),
        _ => at_once(all, &given),
    };
    let trays = given.lost.iter();
    let due: Vec<Symbol> = trays
        .flat_map(|&tray| stored.codeword[cabinet.tray(tray)].to_vec())
        .collect();
    all.run
        .claim(spare == due, || format!("repair of {given:?}: {spare:?}"));
}

fn in_two_pieces(all: &mut Crosscheck, given: &Given) -> Vec<Symbol> {
    let random = &mut all.source.random;
    let mut spare = given.spare(random);
    let cut = random.below(given.cabinet.numbers.groups + 1) as u64;
    for (first, budget) in [(0, cut), (cut, u64::MAX)] {
        let (call, inputs) = given.piece(&mut all.source.random, &spare, first, budget);
        spare = all.run.compare(call, &inputs).symbols().to_vec();
    }
    spare
}

fn at_once(all: &mut Crosscheck, given: &Given) -> Vec<Symbol> {
    let random = &mut all.source.random;
    let spare = given.spare(random);
    let inputs = given.all_groups(random, &spare);
    let answer = all.run.compare(&repair_correcting::CALL, &inputs);
    answer.symbols().to_vec()
}

/// The missing trays of a rack.
fn missing_of(stored: &Stored, rack: u32) -> Vec<u32> {
    let missing = stored.missing.iter().map(|(tray, _)| *tray);
    missing
        .filter(|&tray| stored.kept.cabinet.rack_of(tray) == rack)
        .collect()
}

/// A rack with its missing trays lost: the codeword's symbols but for these, whose
/// places are as they were.
fn gathered_rack(all: &mut Crosscheck, stored: &Stored, rack: u32, lost: &[u32]) -> Vec<Symbol> {
    let Kept { cabinet, volume } = stored.kept;
    let images = stored.kept.rack(&stored.images, rack).to_vec();
    let random = &mut all.source.random;
    let inputs = gather_rack::inputs(random, &cabinet, volume, rack, lost.to_vec(), images);
    let answer = all.run.compare(&gather_rack::CALL, &inputs);
    let mut due = stored.codeword[cabinet.rack(rack)].to_vec();
    for &tray in lost {
        let place = cabinet.tray(tray % cabinet.layout[1]);
        due[place.clone()].copy_from_slice(&inputs.symbols(5)[place]);
    }
    let holds = answer.refusal == 0 && answer.symbols() == due;
    all.run
        .claim(holds, || format!("gather_rack {inputs}: {answer}"));
    answer.symbols().to_vec()
}

/// Without one of the missing trays in the list the rack is refused, on the ground
/// of what stands there.
fn refused_rack(all: &mut Crosscheck, stored: &Stored, rack: u32, lost: &[u32]) {
    let Kept { cabinet, volume } = stored.kept;
    let images = stored.kept.rack(&stored.images, rack).to_vec();
    let random = &mut all.source.random;
    let left_out = random.below(lost.len());
    let mut listed = lost.to_vec();
    let tray = listed.remove(left_out);
    let inputs = gather_rack::inputs(random, &cabinet, volume, rack, listed, images);
    let answer = all.run.compare(&gather_rack::CALL, &inputs);
    let kind = stored.missing.iter().find(|(own, _)| *own == tray);
    let due: &[u32] = match kind.map(|(_, kind)| *kind) {
        Some(Foreign::Demonstration) => &[10],
        Some(Foreign::Volume | Foreign::Place | Foreign::Layout) => &[11],
        Some(Foreign::Header) | None => &[9, 10, 11],
        _ => &[9],
    };
    all.run.claim(due.contains(&answer.refusal), || {
        format!("gather_rack {inputs}: {answer}, not {due:?}")
    });
}
