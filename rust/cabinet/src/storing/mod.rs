//! Data into a new cabinet: every tray file is written beside its place, with its label last, and
//! gets its name when all are whole.

pub mod spool;

use crate::code::symbol::{from_data, Symbol};
use crate::disk::{folder_of, Disk, Hold};
use crate::failure::Failure;
use crate::files;
use crate::files::cabinet::{locked, Cabinet};
use crate::files::census::{Census, STORE};
use crate::files::description::{Description, NAME};
use crate::files::draft::{self, work_name, Draft};
use crate::files::interleave::together;
use crate::files::label::{Label, SIZE};
use crate::files::shape::Shape;
use crate::files::tasks;
use crate::jobs;
use crate::scrub;
use crate::terminal::progress;
use crate::terminal::screen::{Paint, Screen};
use crate::terminal::words::hanging;
use gesarumbo::{checksum, Numbers, Refusal, Tray};
use std::io::Read;
use std::path::Path;

/// Stores data of the length and checksum that the cabinet's description says, in its folder, which
/// is made if need be, and gives the description that the labels have.
/// Without `replace` no cabinet may be there, but for one that a cut store of the same data left.
pub fn store<S: Symbol>(
    mut cabinet: Cabinet,
    data: &mut dyn Read,
    replace: bool,
    screen: &mut Screen,
) -> Result<Description, Failure> {
    judge::<S>(&cabinet)?;
    let (disk, folder) = (cabinet.disk, cabinet.folder().to_path_buf());
    let is_new = disk
        .look(&folder)
        .map_err(Failure::file(&folder))?
        .is_none();
    if is_new {
        disk.make_folder(&folder).map_err(Failure::file(&folder))?;
        draft::sync_folder(disk, folder_of(&folder))?;
    }
    let lock = locked(disk, &folder, Hold::Exclusive)?;
    let stored = prepare(&mut cabinet, replace).and_then(|old| {
        screen.heading(cabinet.description.words());
        write::<S>(&cabinet, data, &old, screen)
    });
    drop(lock);
    if stored.is_err() && is_new {
        // Nothing is in it, and where it is not empty all the same, it stays.
        let _ = disk.remove_folder(&folder);
    }
    stored.map(|()| cabinet.description)
}

/// Lets the library judge the numbers: an image of zeros.
fn judge<S: Symbol>(cabinet: &Cabinet) -> Result<(), Failure> {
    let zeros = vec![S::default(); cabinet.numbers.layers];
    cabinet.segment_bytes(0, Tray::new(0), &zeros).map(|_| ())
}

/// Looks at what the folder holds, puts a store that was cut there to its end, and gives the new
/// cabinet its generation.
fn prepare(cabinet: &mut Cabinet, replace: bool) -> Result<Census, Failure> {
    let (disk, folder) = (cabinet.disk, cabinet.folder().to_path_buf());
    let census = Census::take(disk, &folder)?;
    let text = folder.join(NAME);
    let has_text = disk.look(&text).map_err(Failure::file(&text))?.is_some();
    let is_taken = has_text || (census.has_trays() && !was_cut(cabinet)?);
    if is_taken && !replace {
        return Err(is_there(&folder));
    }
    // Where it cannot be told which cabinet is there, the new one takes the place of all.
    if let Ok(Some(agreed)) = census.agreed() {
        census.roll_forward(disk, &folder, &agreed)?;
    }
    let generation = census
        .newest()
        .checked_add(1)
        .ok_or_else(|| Failure::Contents(format!("{}: no generation is left", folder.display())))?;
    let description = Description {
        generation,
        ..cabinet.description
    };
    let jobs = cabinet.jobs;
    *cabinet = Cabinet::new(disk, &folder, description)?;
    cabinet.jobs = jobs;
    // New trays get the mode of those that they replace.
    cabinet.trays = Census::take(disk, &folder)?.of(&description, cabinet.numbers.trays as u32);
    Ok(census)
}

fn is_there(folder: &Path) -> Failure {
    Failure::File(format!(
        "{}: a cabinet is there already (see --replace)",
        folder.display()
    ))
}

/// Whether a store of the same description was cut in this folder.
fn was_cut(cabinet: &Cabinet) -> Result<bool, Failure> {
    let work = work_name(&cabinet.file(NAME), STORE)?;
    let found = files::read(cabinet.disk, &work).map_err(Failure::file(&work))?;
    let found = found.and_then(|bytes| Description::parse(&bytes));
    Ok(found.is_some_and(|found| {
        let ours = cabinet.description;
        let same = Description {
            generation: ours.generation,
            ..found
        };
        same == ours
    }))
}

/// Writes all files of a cabinet, and gives them their names.
fn write<S: Symbol>(
    cabinet: &Cabinet,
    data: &mut dyn Read,
    old: &Census,
    screen: &mut Screen,
) -> Result<(), Failure> {
    let (disk, folder) = (cabinet.disk, cabinet.folder().to_path_buf());
    // The description comes first and gets its name last: where it is left under its work name, a
    // store was cut.
    let mut text = Draft::begin(disk, &cabinet.file(NAME), STORE, cabinet.mode())?;
    text.write(&cabinet.description.bytes())?;
    text.sync()?;
    draft::sync_folder(disk, &folder)?;
    let mut drafts = begin(cabinet)?;
    let sum = write_segments::<S>(cabinet, data, &mut drafts, screen)?;
    if cabinet.description.checksum != Some(sum) {
        return Err(Failure::File(
            "the data changed while they were stored".to_string(),
        ));
    }
    write_labels(cabinet, &mut drafts)?;
    draft::settle(&mut drafts)?;
    forget_cut_tasks(disk, &folder)?;
    text.stays = true;
    draft::rename(drafts)?;
    clear_beyond(cabinet, old, screen)?;
    draft::rename(vec![text])
}

/// Removes the old cabinet's trays that the new one has no place for, and names them; what is not
/// known to be one is named too, and stays.
fn clear_beyond(cabinet: &Cabinet, old: &Census, screen: &mut Screen) -> Result<(), Failure> {
    let (own, others) = old.beyond(cabinet.numbers.trays as u32);
    for path in &own {
        files::remove(cabinet.disk, path)?;
    }
    for (paths, words) in [
        (own, "removed, trays of the old cabinet"),
        (others, "left, no trays of this cabinet"),
    ] {
        let name = |path: &&Path| {
            path.file_name()
                .map(|name| name.to_string_lossy().into_owned())
        };
        let names: Vec<String> = paths.iter().filter_map(name).collect();
        if !names.is_empty() {
            let words = screen.paint(Paint::Warning, words);
            screen.line(hanging("  ", &format!("{words}: {}", names.join(", "))));
        }
    }
    Ok(())
}

/// A work file for every tray, with room for its label.
fn begin<'d>(cabinet: &Cabinet<'d>) -> Result<Vec<Draft<'d>>, Failure> {
    let mode = cabinet.mode();
    let begin = |tray| {
        let path = cabinet.image_path(tray);
        let mut draft = Draft::begin(cabinet.disk, &path, STORE, mode)?;
        draft.write(&[0; SIZE])?;
        Ok(draft)
    };
    cabinet.numbers.all_trays().map(begin).collect()
}

/// Writes all segments, and gives the checksum of the data.
fn write_segments<S: Symbol>(
    cabinet: &Cabinet,
    data: &mut dyn Read,
    drafts: &mut [Draft],
    screen: &mut Screen,
) -> Result<u64, Failure> {
    let (shape, segments): (&Shape, u32) = (cabinet, cabinet.geometry.segments());
    let size = cabinet.geometry.size(0) * cabinet.numbers.trays;
    let at_once = jobs::at_once(cabinet.jobs, size);
    let mut sum = 0;
    for first in (0..segments).step_by(at_once) {
        let end = segments.min(first.saturating_add(at_once as u32));
        let read = |segment| Ok((segment, read_segment(shape, data, segment, &mut sum)?));
        let read: Vec<_> = (first..end).map(read).collect::<Result<_, Failure>>()?;
        let work = |(segment, bytes): (u32, Vec<u8>)| encode::<S>(shape, segment, &bytes);
        for (segment, trays) in (first..end).zip(jobs::map(cabinet.jobs, read, work)) {
            for (bytes, draft) in trays?.iter().zip(&mut *drafts) {
                draft.write(bytes)?;
            }
            progress::segment(cabinet, &cabinet.geometry.stripes_of(segment), screen);
        }
    }
    Ok(sum)
}

/// The data of the next segment, with zeros after the last of them; their checksum is taken on.
fn read_segment(
    shape: &Shape,
    data: &mut dyn Read,
    segment: u32,
    sum: &mut u64,
) -> Result<Vec<u8>, Failure> {
    let (stripes, stripe) = (shape.geometry.stripes_of(segment), shape.numbers.data());
    let room = stripes.len() * stripe;
    let before = u64::from(stripes.start) * stripe as u64;
    let left = shape.description.length.unwrap_or_default() - before;
    let wanted = usize::try_from(left).map_or(room, |left| left.min(room));
    let mut bytes = Vec::with_capacity(room);
    data.take(wanted as u64)
        .read_to_end(&mut bytes)
        .map_err(|error| Failure::File(format!("the data: {error}")))?;
    if bytes.len() < wanted {
        return Err(Failure::File(
            "the data end before their length".to_string(),
        ));
    }
    *sum = checksum(*sum, &bytes);
    bytes.resize(room, 0);
    Ok(bytes)
}

/// Whether a segment of so many stripes is stored by one call: where there are few, the numbers that a
/// batch works out once for all its codewords cost more than they save. Single calls are at their best
/// where layers have binary digits (measured: docs/landings/BATCHES.md).
fn is_batch(numbers: &Numbers, stripes: usize) -> bool {
    let least = if numbers.digits > 2 { 32 } else { 128 };
    stripes >= least
}

/// A segment of every tray, of the data of its stripes.
fn encode<S: Symbol>(shape: &Shape, segment: u32, data: &[u8]) -> Result<Vec<Vec<u8>>, Failure> {
    let numbers = &shape.numbers;
    let stripes = shape.geometry.stripes_of(segment).len();
    let codewords: Vec<S> = match is_batch(numbers, stripes) {
        true => at_once(numbers, stripes, data),
        false => one_by_one(numbers, stripes, data),
    }
    .map_err(Failure::refused("store"))?;
    let trays = (0..)
        .map(Tray::new)
        .zip(codewords.chunks(numbers.layers * stripes));
    trays
        .map(|(tray, part)| shape.segment_bytes(segment, tray, part))
        .collect()
}

/// The codewords of so many stripes, interleaved, by one call.
fn at_once<S: Symbol>(numbers: &Numbers, stripes: usize, data: &[u8]) -> Result<Vec<S>, Refusal> {
    let mut batch = vec![S::default(); numbers.data() * stripes];
    for (place, data) in data.chunks(numbers.data()).enumerate() {
        together(&from_data(data), stripes, place, &mut batch);
    }
    let mut codewords = vec![S::default(); numbers.codeword() * stripes];
    (S::CALLS.store_batch)(numbers.layout, stripes, &batch, &mut codewords)?;
    Ok(codewords)
}

/// The same codewords, each by a call of its own.
fn one_by_one<S: Symbol>(
    numbers: &Numbers,
    stripes: usize,
    data: &[u8],
) -> Result<Vec<S>, Refusal> {
    let mut codeword = vec![S::default(); numbers.codeword()];
    let mut codewords = vec![S::default(); numbers.codeword() * stripes];
    for (place, data) in data.chunks(numbers.data()).enumerate() {
        (S::CALLS.store)(numbers.layout, &from_data(data), &mut codeword)?;
        together(&codeword, stripes, place, &mut codewords);
    }
    Ok(codewords)
}

fn write_labels(cabinet: &Cabinet, drafts: &mut [Draft]) -> Result<(), Failure> {
    for (tray, draft) in (0..).map(Tray::new).zip(drafts) {
        let label = Label {
            cabinet: cabinet.description,
            tray,
        };
        draft.write_start(&label.bytes())?;
    }
    Ok(())
}

/// Removes the checkpoints and work files of repairs, recoveries and scrubs that were cut, and the
/// record of the last scrub: they are of other trays.
fn forget_cut_tasks(disk: &dyn Disk, folder: &Path) -> Result<(), Failure> {
    let is_of_one = |name: &str| {
        let of_pipe = work_name(Path::new(spool::INPUT), STORE);
        if of_pipe.is_ok_and(|work| work == Path::new(name)) {
            return true;
        }
        let of_scrub = [scrub::NAME, scrub::record::NAME].contains(&tasks::bare(name));
        of_scrub || tasks::is_of_rebuild(name)
    };
    for name in disk.list(folder).map_err(Failure::file(folder))? {
        if name.to_str().is_some_and(is_of_one) {
            files::remove(disk, &folder.join(&name))?;
        }
    }
    Ok(())
}

#[cfg(test)]
mod tests {
    use super::{at_once, one_by_one};
    use crate::code::symbol::Symbol;
    use gesarumbo::Layout;

    /// The same codewords, by one call and by single calls.
    fn alike<S: Symbol>(layout: Layout, stripes: usize) {
        let numbers = (S::CALLS.numbers)(layout).expect("an admissible layout");
        let bytes = (0..numbers.data() * stripes).map(|place| (place * 167 % 251) as u8);
        let data: Vec<u8> = bytes.collect();
        let batch: Vec<S> = at_once(&numbers, stripes, &data).expect("it is stored");
        let single: Vec<S> = one_by_one(&numbers, stripes, &data).expect("it is stored");
        assert!(batch == single, "{layout:?}, {stripes} stripes");
    }

    #[test]
    fn one_call_stores_what_single_calls_do() {
        for stripes in [1, 2, 33, 256] {
            alike::<u8>(Layout::new(4, 3, 8, 3), stripes);
            alike::<u8>(Layout::new(5, 3, 4, 3), stripes);
            alike::<u16>(Layout::new(5, 4, 15, 4), stripes);
        }
    }
}
