//! One segment of a cabinet, read: what stands at each tray's place, and the symbols of those that
//! are there. The library decides which are live images of this layout, volume and place.

use super::cabinet::Cabinet;
use super::found::{Found, Kind};
use super::geometry::{CHECKSUM, HEADER};
use super::header::Header;
use super::interleave::apart;
use super::shape::Shape;
use super::stripe::Stripe;
use super::trouble::Trouble;
use crate::code::symbol::Symbol;
use crate::disk::read_part;
use crate::failure::Failure;
use gesarumbo::{checksum, Rack, Refusal, Tray};
use std::ops::Range;

/// A segment with every tray read.
pub struct Segment<'a, S> {
    pub cabinet: &'a Shape,
    pub number: u32,
    pub stripes: Range<u32>,
    /// What stands at each tray's place.
    pub found: Vec<Found>,
    /// The symbols of each tray, interleaved; none where it has none.
    parts: Vec<Vec<S>>,
    /// What the library is lent: a header and L symbols a tray, zeros where there are not as many.
    images: Vec<u8>,
    /// The checksum that each tray's segment ends with.
    checks: Vec<Option<u64>>,
    /// Trays of a wrong checksum, and the stripes of which they have not all symbols.
    gaps: Vec<(Tray, Vec<u32>)>,
}

/// What was read at a tray's place.
enum Read {
    Bytes(Vec<u8>),
    Not(Found),
}

/// A segment as its bytes were read, with nothing worked out.
pub struct Raw {
    number: u32,
    read: Vec<Read>,
}

impl Raw {
    /// Reads a segment of the wanted trays; others are taken as absent. Only trouble of the system
    /// itself is a failure.
    pub fn read(
        cabinet: &Cabinet,
        number: u32,
        wanted: &dyn Fn(Tray) -> bool,
    ) -> Result<Raw, Failure> {
        let trays = cabinet.numbers.all_trays();
        let read = |tray| match wanted(tray) {
            true => read(cabinet, number, tray),
            false => Ok(Read::Not(Found::Absent)),
        };
        let read = trays.map(read).collect::<Result<_, Failure>>()?;
        Ok(Raw { number, read })
    }
}

/// The bytes of a tray's segment, as far as they are there, and whether its checksum is right.
struct Held {
    bytes: Vec<u8>,
    /// The same, with zeros for numbers that are no symbols where the checksum is wrong.
    clean: Option<Vec<u8>>,
    is_right: bool,
    check: Option<u64>,
}

impl<'a, S: Symbol> Segment<'a, S> {
    /// Reads a segment of the wanted trays; others are taken as absent.
    pub fn read(
        cabinet: &'a Cabinet<'a>,
        number: u32,
        wanted: &dyn Fn(Tray) -> bool,
    ) -> Result<Segment<'a, S>, Failure> {
        Segment::of(cabinet, Raw::read(cabinet, number, wanted)?)
    }

    /// What a segment is that was read.
    pub fn of(cabinet: &'a Shape, raw: Raw) -> Result<Segment<'a, S>, Failure> {
        let number = raw.number;
        let sum = |read| match read {
            Read::Bytes(bytes) => Ok(summed::<S>(cabinet, number, bytes)),
            Read::Not(found) => Err(found),
        };
        let held: Vec<Result<Held, Found>> = raw.read.into_iter().map(sum).collect();
        let mut segment = Segment {
            cabinet,
            number,
            stripes: cabinet.geometry.stripes_of(number),
            found: Vec::new(),
            parts: Vec::new(),
            images: images(cabinet, number, &held),
            checks: Vec::new(),
            gaps: Vec::new(),
        };
        let missing = segment.gathered()?;
        for (tray, held) in cabinet.numbers.all_trays().zip(held) {
            segment.add(tray, held, missing.contains(&tray));
        }
        Ok(segment)
    }

    /// The trays that are no live images of this layout, volume and place.
    fn gathered(&self) -> Result<Vec<Tray>, Failure> {
        let numbers = &self.cabinet.numbers;
        let mut codeword = vec![S::default(); numbers.codeword()];
        let mut missing = vec![Tray::new(0); numbers.trays];
        let (layout, volume) = (numbers.layout, self.cabinet.volume(self.number));
        let count = (S::CALLS.gather)(layout, volume, &self.images, &mut codeword, &mut missing)
            .map_err(Failure::refused("gathering"))?;
        missing.truncate(count);
        Ok(missing)
    }

    /// Takes in what was read of one tray.
    fn add(&mut self, tray: Tray, held: Result<Held, Found>, is_missing: bool) {
        let held = match held {
            Err(found) => return self.add_found(found, Vec::new(), None),
            Ok(held) => held,
        };
        if is_missing {
            let found = self.refused(tray, &held.bytes);
            return self.add_found(found, Vec::new(), None);
        }
        let symbols = self.cabinet.geometry.summed(self.number);
        let mut bytes = prefix(held.clean(), symbols)[HEADER..].to_vec();
        bytes.resize(symbols - HEADER, 0);
        let part = S::from_bytes(&bytes).unwrap_or_default();
        let found = match part.iter().all(|symbol| symbol.is_symbol()) {
            false => Found::Refused(Refusal::Malformed),
            true if held.is_right => Found::Live,
            true => Found::Rotten,
        };
        if found == Found::Rotten {
            self.add_gaps(tray, prefix(&held.bytes, symbols));
        }
        let part = if found.has_symbols() {
            part
        } else {
            Vec::new()
        };
        self.add_found(found, part, held.check);
    }

    /// Takes in the stripes of which a tray has not all symbols: its file is too short for them, or
    /// has a number that is none.
    fn add_gaps(&mut self, tray: Tray, bytes: &[u8]) {
        let many = self.stripes.len();
        let is_whole = |bytes: &[u8]| S::of_bytes(bytes).is_some_and(|symbol| symbol.is_symbol());
        let mut symbols = bytes[HEADER..].chunks(S::WIDTH).map(is_whole);
        let mut is_open = vec![false; many];
        for place in 0..self.cabinet.numbers.layers * many {
            if !symbols.next().unwrap_or(false) {
                is_open[place % many] = true;
            }
        }
        let stripes = self.stripes.clone().zip(is_open);
        let gaps: Vec<u32> = stripes
            .filter_map(|(stripe, is_open)| is_open.then_some(stripe))
            .collect();
        if !gaps.is_empty() {
            self.gaps.push((tray, gaps));
        }
    }

    /// The trays that have not all symbols of a stripe, and no right checksum.
    pub fn with_gaps(&self, stripe: u32) -> Vec<Tray> {
        let here = self.gaps.iter().filter(|(_, gaps)| gaps.contains(&stripe));
        here.map(|(tray, _)| *tray).collect()
    }

    fn add_found(&mut self, found: Found, part: Vec<S>, check: Option<u64>) {
        self.found.push(found);
        self.parts.push(part);
        self.checks.push(check);
    }

    /// Why the library does not take what was read.
    fn refused(&self, tray: Tray, bytes: &[u8]) -> Found {
        let cabinet = self.cabinet;
        let (layout, volume) = (cabinet.description.layout, cabinet.volume(self.number));
        // An image of another layout is as long as its header says, and one byte more at the end of
        // the file is one too many: so the library refuses it on the right ground.
        let own = Header::of(bytes).and_then(|header| header.image_size());
        let own = own.unwrap_or(cabinet.geometry.image());
        let size = cabinet.geometry.size(self.number);
        let lent = match bytes.len() > size && own == cabinet.geometry.image() {
            true => [prefix(bytes, own), &[0]].concat(),
            false => prefix(bytes, own).to_vec(),
        };
        match S::read_image(layout, volume, &lent) {
            Ok((found, _)) if found != tray => Found::Misplaced(found),
            Ok(_) => Found::Refused(Refusal::Malformed),
            Err(refusal) => Found::Refused(refusal),
        }
    }

    /// Takes trays as absent, whatever stands at their places.
    pub fn leave_out(&mut self, trays: &[Tray]) {
        for tray in trays {
            if let Some(found) = self.found.get_mut(tray.number() as usize) {
                *found = Found::Absent;
            }
        }
    }

    /// One kind a tray.
    pub fn kinds(&self) -> Vec<Kind> {
        self.found.iter().map(Found::kind).collect()
    }

    /// What stands at a tray's place; a tray outside the layout is absent.
    pub fn found(&self, tray: Tray) -> &Found {
        let found = self.found.get(tray.number() as usize);
        found.unwrap_or(&Found::Absent)
    }

    fn trays(&self, is_wanted: impl Fn(&Found) -> bool) -> Vec<Tray> {
        let all = self.cabinet.numbers.all_trays();
        all.filter(|tray| is_wanted(self.found(*tray))).collect()
    }

    /// The trays that have no symbols here.
    pub fn missing(&self) -> Vec<Tray> {
        self.trays(|found| !found.has_symbols())
    }

    /// The trays with a wrong checksum.
    pub fn rotten(&self) -> Vec<Tray> {
        self.trays(|found| *found == Found::Rotten)
    }

    /// A stripe of it.
    pub fn stripe(&self, number: u32) -> Stripe<'_, S> {
        let numbers = &self.cabinet.numbers;
        let (many, place) = (self.stripes.len(), (number - self.stripes.start) as usize);
        let mut codeword = vec![S::default(); numbers.codeword()];
        for (part, out) in self.parts.iter().zip(codeword.chunks_mut(numbers.layers)) {
            apart(part, many, place, out);
        }
        Stripe {
            cabinet: self.cabinet,
            number,
            found: &self.found,
            codeword,
        }
    }

    /// Lets the library judge a rack, of which some trays are lost: all others must be live.
    pub fn judge_rack(&self, rack: Rack, lost: &[Tray]) -> Result<(), Failure> {
        let (cabinet, numbers) = (self.cabinet, &self.cabinet.numbers);
        for tray in numbers.trays_of(rack).filter(|tray| !lost.contains(tray)) {
            if let found @ (Found::Absent
            | Found::Unreadable(_)
            | Found::Closed(_)
            | Found::Other(_)) = self.found(tray)
            {
                return Err(found.failure(&cabinet.image_path(tray)));
            }
        }
        let (layout, volume) = (numbers.layout, cabinet.volume(self.number));
        let size = numbers.layout.size as usize * cabinet.geometry.image();
        let images = self.images.chunks(size).nth(rack.number() as usize);
        let lost: Vec<Tray> = numbers
            .trays_of(rack)
            .filter(|tray| lost.contains(tray))
            .collect();
        let mut out = vec![S::default(); numbers.rack()];
        let judged = (S::CALLS.gather_rack)(
            layout,
            volume,
            rack,
            &lost,
            images.unwrap_or_default(),
            &mut out,
        );
        judged.map_err(|refusal| self.rack_failure(rack, &lost, refusal))
    }

    /// Which tray of a rack is refused.
    fn rack_failure(&self, rack: Rack, lost: &[Tray], refusal: Refusal) -> Failure {
        let mut trays = self.cabinet.numbers.trays_of(rack);
        let is_it = |tray: &Tray| {
            let found = self.found(*tray);
            let misplaced = matches!(found, Found::Misplaced(_)) && refusal == Refusal::Other;
            !lost.contains(tray) && (*found == Found::Refused(refusal) || misplaced)
        };
        match trays.find(is_it) {
            Some(tray) => self.found(tray).failure(&self.cabinet.image_path(tray)),
            None => Failure::refused(format!("rack {rack}"))(refusal),
        }
    }

    /// Whether a tray's segment of these symbols has the checksum that its file ends with.
    pub fn has_checksum(&self, tray: Tray, part: &[S]) -> Result<bool, Failure> {
        let bytes = self.cabinet.segment_bytes(self.number, tray, part)?;
        let (_, end) = bytes.split_at(bytes.len() - CHECKSUM);
        let stored = self.checks[tray.number() as usize];
        Ok(stored.is_some_and(|stored| stored.to_le_bytes() == *end))
    }

    /// For `map_err`: names the first stripe, where there are several.
    pub fn named(&self) -> impl FnOnce(Failure) -> Failure + '_ {
        |failure| failure.at(&self.cabinet.place(self.stripes.start))
    }
}

/// Works on a segment, and gives what comes of it with the segment.
pub fn with_segment<'a, S, R>(
    work: impl Fn(&Segment<'a, S>) -> R + Sync,
) -> impl Fn(Segment<'a, S>) -> Result<(Segment<'a, S>, R), Failure> + Sync {
    move |segment| {
        let result = work(&segment);
        Ok((segment, result))
    }
}

/// Up to so many bytes from the start.
fn prefix(bytes: &[u8], length: usize) -> &[u8] {
    &bytes[..length.min(bytes.len())]
}

/// Reads a tray's segment, and at the end of the file one byte more where no checksum tells whether
/// the segment is whole.
fn read(cabinet: &Cabinet, number: u32, tray: Tray) -> Result<Read, Failure> {
    let Some(file) = &cabinet.trays[tray.number() as usize] else {
        return Ok(Read::Not(Found::Absent));
    };
    if let Some(words) = cabinet.is_other(file) {
        return Ok(Read::Not(Found::Other(words)));
    }
    let handle = match &file.file {
        Ok(handle) => handle,
        Err((trouble, words)) => return Ok(Read::Not(not_read(*trouble, words.clone()))),
    };
    let geometry = &cabinet.geometry;
    let is_asked = number + 1 == geometry.segments() && !geometry.has_checksums();
    let size = geometry.size(number) + usize::from(is_asked);
    match read_part(&**handle, geometry.offset(number), size) {
        Ok(bytes) => Ok(Read::Bytes(bytes)),
        Err(error) => match Trouble::of(&error) {
            Trouble::Local => Err(Failure::file(&file.path)(error)),
            trouble => Ok(Read::Not(not_read(trouble, error.to_string()))),
        },
    }
}

fn not_read(trouble: Trouble, words: String) -> Found {
    match trouble {
        Trouble::Medium => Found::Unreadable(words),
        _ => Found::Closed(words),
    }
}

/// Whether the checksum of a tray's segment is right; without checksums it is. Where it is wrong, a
/// number that is no symbol is as wrong as any other, and zero stands in its place.
fn summed<S: Symbol>(cabinet: &Shape, number: u32, bytes: Vec<u8>) -> Held {
    let geometry = &cabinet.geometry;
    let (end, size) = (geometry.summed(number), geometry.size(number));
    let check = bytes.get(end..size).and_then(|end| end.try_into().ok());
    let check: Option<u64> = check.map(u64::from_le_bytes);
    let is_right = match geometry.has_checksums() {
        true => check == Some(checksum(cabinet.seed, prefix(&bytes, end))),
        false => true,
    };
    let clean = match is_right {
        true => None,
        false => cleaned::<S>(prefix(&bytes, end)),
    };
    Held {
        bytes,
        clean,
        is_right,
        check,
    }
}

/// A header and symbols, with zeros for numbers that are none; nothing where all are.
fn cleaned<S: Symbol>(bytes: &[u8]) -> Option<Vec<u8>> {
    let is_none = |bytes: &[u8]| !S::of_bytes(bytes).is_some_and(|symbol| symbol.is_symbol());
    let symbols = bytes.get(HEADER..)?;
    if !symbols.chunks(S::WIDTH).any(is_none) {
        return None;
    }
    let mut clean = bytes.to_vec();
    let symbols = clean[HEADER..].chunks_mut(S::WIDTH);
    symbols
        .filter(|symbol| is_none(symbol))
        .for_each(|symbol| symbol.fill(0));
    Some(clean)
}

impl Held {
    fn clean(&self) -> &[u8] {
        self.clean.as_ref().unwrap_or(&self.bytes)
    }
}

/// What the library is lent of all trays; what is too short or longer than it may be, as zeros.
fn images(cabinet: &Shape, number: u32, held: &[Result<Held, Found>]) -> Vec<u8> {
    let size = cabinet.geometry.image();
    let most = cabinet.geometry.size(number);
    let mut images = vec![0; held.len() * size];
    for (image, held) in images.chunks_mut(size).zip(held) {
        match held {
            Ok(held) if held.clean().len() >= size && held.bytes.len() <= most => {
                image.copy_from_slice(&held.clean()[..size]);
            }
            _ => {}
        }
    }
    images
}
