//! Random damage of every kind, against one sentence: what a command gives is right, and it refuses
//! only where fewer than k trays are right in some stripe, or where it cannot be told which cabinet
//! is meant.
//!
//! `CABINET_TRIALS` asks for more trials than the gate runs, `CABINET_SEED` for others.

use super::{data, done, is_done, run};
use crate::disk::simulated::Simulated;
use crate::files::description::Description;
use crate::files::label::Label;
use crate::files::shape::Shape;
use gesarumbo::checksum;
use std::collections::BTreeMap;
use std::env;
use std::path::Path;

/// Numbers without a pattern.
struct Dice(u64);

impl Dice {
    fn below(&mut self, end: usize) -> usize {
        self.0 = self
            .0
            .wrapping_mul(6_364_136_223_846_793_005)
            .wrapping_add(1);
        let mixed = (self.0 ^ (self.0 >> 33)).wrapping_mul(0xFF51_AFD7_ED55_8CCD);
        ((mixed ^ (mixed >> 29)) % end.max(1) as u64) as usize
    }

    fn one_in(&mut self, count: usize) -> bool {
        self.below(count) == 0
    }
}

/// What is stored: a layout and its field, a repair line for tray 1, and lengths of data.
const LAYOUTS: [(&str, &str, &[usize]); 6] = [
    ("3 1 1 2", "--lost 1 --helpers 0,2", &[5, 40, 9_000]),
    ("2 1 1 1", "--lost 1 --helpers 0", &[3, 30]),
    ("4 3 8 3", "--lost 1 --helpers 1,2,3", &[90, 1_000, 70_000]),
    ("4 3 6 3", "--lost 1 --helpers 1,2,3", &[90, 1_000]),
    ("6 3 5 4 1", "--lost 1 --helpers 1,2,3,4", &[300, 1_000]),
    (
        "5 4 15 4 --field 257",
        "--lost 1 --helpers 1,2,3,4",
        &[400, 4_000, 40_000],
    ),
];

/// A cabinet as it should be in the folder `c`, and what is mixed with it.
struct World {
    repair: &'static str,
    disk: Simulated,
    shape: Shape,
    /// The files of `c` by their names.
    truth: BTreeMap<String, Vec<u8>>,
    /// Tray files of an older store in `c`, and of another cabinet.
    stale: Vec<Vec<u8>>,
    foreign: Vec<Vec<u8>>,
    old_text: Vec<u8>,
    margin: String,
    share: Vec<u8>,
}

fn name(tray: usize) -> String {
    format!("c/tray-{tray:02}.img")
}

impl World {
    fn new(layout: &str, repair: &'static str, length: usize) -> World {
        let disk = Simulated::with(&[
            ("data", &data(length + 1)[1..]),
            ("older", &data(length + 4)[4..]),
            ("elsewhere", &data(length + 9)[9..]),
        ]);
        done(&disk, &format!("store {layout} --volume 7 older c"));
        done(&disk, &format!("store {layout} --volume 7 elsewhere d"));
        let all = |folder: &str| -> Vec<Vec<u8>> {
            let tray = |tray: usize| disk.get(&format!("{folder}/tray-{tray:02}.img"));
            (0..).map_while(tray).collect()
        };
        let (stale, foreign) = (all("c"), all("d"));
        let old_text = disk.get("c/cabinet.txt").expect("it is there");
        done(
            &disk,
            &format!("store {layout} --volume 7 --replace data c"),
        );
        done(&disk, "share c --host 0 --helper 1 sent");
        let margin = done(&disk, "margin c");
        let truth = in_folder(&disk);
        let label = Label::parse(&truth[&name(0)][..512]).expect("it is labelled");
        let shape = Shape::new(Path::new("c"), label.cabinet).expect("it is admissible");
        let share = disk.get("sent").expect("it is written");
        disk.take("sent");
        World {
            repair,
            disk: disk.copy(),
            shape,
            truth,
            stale,
            foreign,
            old_text,
            margin,
            share,
        }
    }
}

/// The files of `c`.
fn in_folder(disk: &Simulated) -> BTreeMap<String, Vec<u8>> {
    let mut files = disk.files();
    files.retain(|name, _| name.starts_with("c/"));
    files
}

/// A damaged disk, and what is known of it.
struct Damaged {
    disk: Simulated,
    words: Vec<String>,
    /// Bytes that cannot be read, by tray.
    spoilt: Vec<(usize, u64)>,
    /// Trays whose files are of another cabinet.
    alien: Vec<usize>,
}

impl Damaged {
    fn new(world: &World, dice: &mut Dice) -> Damaged {
        let mut damaged = Damaged {
            disk: world.disk.copy(),
            words: Vec::new(),
            spoilt: Vec::new(),
            alien: Vec::new(),
        };
        let trays = world.shape.numbers.trays;
        let checks = world.shape.numbers.checks;
        let count = match dice.below(4) {
            0 => dice.below(2),
            1 => dice.below(checks + 1),
            2 => checks + dice.below(3),
            _ => dice.below(trays + 1),
        };
        // Often the same kind of damage for many.
        let kind = dice.below(KINDS);
        let is_same = dice.one_in(2);
        let one_segment = dice.below(world.shape.geometry.segments() as usize);
        for _ in 0..count {
            let (tray, other) = (dice.below(trays), dice.below(KINDS));
            let kind = if is_same { kind } else { other };
            let segment = match dice.one_in(3) {
                true => dice.below(world.shape.geometry.segments() as usize),
                false => one_segment,
            };
            damaged.harm(world, tray, kind, segment, dice);
        }
        if dice.one_in(4) {
            damaged.harm_text(world, dice);
        }
        damaged
    }

    fn harm_text(&mut self, world: &World, dice: &mut Dice) {
        let text = "c/cabinet.txt";
        let kind = dice.below(3);
        self.words.push(format!("cabinet.txt {kind}"));
        match kind {
            0 => self.disk.take(text),
            1 => self.disk.put(text, &world.old_text),
            _ => {
                let mut bytes = self.disk.get(text).unwrap_or_default();
                let at = dice.below(bytes.len());
                bytes[at] ^= 1 << dice.below(8);
                self.disk.put(text, &bytes);
            }
        }
    }

    fn harm(&mut self, world: &World, tray: usize, kind: usize, segment: usize, dice: &mut Dice) {
        let name = name(tray);
        self.words
            .push(format!("tray {tray} kind {kind} segment {segment}"));
        let Some(mut bytes) = self.disk.get(&name) else {
            return;
        };
        let geometry = &world.shape.geometry;
        let start = geometry.offset(segment as u32) as usize;
        let size = geometry.size(segment as u32);
        let flip = |bytes: &mut Vec<u8>, at: usize, dice: &mut Dice| {
            if let Some(byte) = bytes.get_mut(at) {
                *byte ^= 1 << dice.below(8);
            }
        };
        match kind {
            // Symbols of one stripe; the header; the checksum; the label.
            0 | 1 => {
                for _ in 0..=dice.below(3) {
                    flip(&mut bytes, start + 24 + dice.below(size - 32), dice);
                }
            }
            2 => flip(&mut bytes, start + dice.below(24), dice),
            3 => flip(&mut bytes, start + size - 1 - dice.below(8), dice),
            4 => flip(&mut bytes, dice.below(512), dice),
            5 => bytes.iter_mut().take(512).for_each(|byte| *byte = 0),
            6 => bytes.truncate(dice.below(bytes.len())),
            7 => bytes.truncate(bytes.len() - 1 - dice.below(12)),
            8 => bytes.extend((0..=dice.below(600)).map(|byte| byte as u8)),
            9 => return self.disk.take(&name),
            10 => bytes = world.stale[tray].clone(),
            11 => bytes = world.foreign[tray].clone(),
            12 => {
                bytes = world.stale[tray].clone();
                flip(&mut bytes, dice.below(512), dice);
            }
            13 => {
                bytes = world.foreign[tray].clone();
                flip(&mut bytes, dice.below(512), dice);
            }
            14 => {
                let other = self::name(dice.below(world.shape.numbers.trays));
                if let Some(swapped) = self.disk.get(&other) {
                    self.disk.put(&other, &bytes);
                    bytes = swapped;
                }
            }
            15 => {
                if let Some(state) = bytes.get_mut(start + 3) {
                    *state = 2;
                }
            }
            16 => {
                let at = dice.below(bytes.len());
                let end = bytes.len().min(at + dice.below(3_000));
                bytes[at..end]
                    .iter_mut()
                    .for_each(|byte| *byte = dice.below(256) as u8);
            }
            17 => {
                let at = start as u64 + dice.below(size) as u64;
                self.disk.put(&name, &bytes);
                self.disk.spoil(&name, at..at + 1);
                return self.spoilt.push((tray, at));
            }
            _ => bytes = (0..bytes.len()).map(|_| dice.below(256) as u8).collect(),
        }
        if (10..14).contains(&kind) {
            self.alien.push(tray);
        }
        self.spoilt.retain(|(of, _)| *of != tray);
        self.disk.put(&name, &bytes);
    }

    /// The cabinet of a tray's file by its label, if that can be read.
    fn label(&self, tray: usize) -> Option<Description> {
        let bytes = self.disk.get(&name(tray))?;
        let is_spoilt = self.spoilt.iter().any(|(of, at)| *of == tray && *at < 512);
        let label = Label::parse(bytes.get(..512)?).filter(|_| !is_spoilt)?;
        Some(label.cabinet)
    }

    /// The bytes of a segment, if the medium can be read there.
    fn segment(&self, shape: &Shape, tray: usize, segment: u32) -> Option<Vec<u8>> {
        let bytes = self.disk.get(&name(tray))?;
        let start = shape.geometry.offset(segment);
        let end = start + shape.geometry.size(segment) as u64;
        let is_in = |(of, at): &(usize, u64)| *of == tray && (start..end).contains(at);
        if self.spoilt.iter().any(is_in) {
            return None;
        }
        Some(bytes.get(start as usize..)?.to_vec())
    }

    /// How many trays are right in the worst stripe: of no other cabinet, with the header and the
    /// symbols that they should have, and with the checksum of the segment, where that is asked for.
    fn right(&self, world: &World, with_checksum: bool) -> usize {
        let shape = &world.shape;
        let mut least = usize::MAX;
        for segment in 0..shape.geometry.segments() {
            let stripes = shape.geometry.stripes_of(segment).len();
            let mut right = vec![0; stripes];
            for tray in 0..shape.numbers.trays {
                let other = self.label(tray).is_some_and(|of| of != shape.description);
                let other = other || self.alien.contains(&tray);
                let (Some(found), false) = (self.segment(shape, tray, segment), other) else {
                    continue;
                };
                let truth = &world.truth[&name(tray)];
                let truth = &truth[shape.geometry.offset(segment) as usize..];
                if found.len() < 24 || found[..24] != truth[..24] {
                    continue;
                }
                let check = shape.geometry.summed(segment)..shape.geometry.size(segment);
                if with_checksum && found.get(check.clone()) != truth.get(check) {
                    continue;
                }
                for (stripe, right) in right.iter_mut().enumerate() {
                    *right += usize::from(is_right(shape, &found, truth, stripe, stripes));
                }
            }
            least = least.min(right.into_iter().min().unwrap_or(0));
        }
        least
    }

    /// How many trays are of a cabinet, by their labels or by a segment that is right.
    fn votes(&self, shape: &Shape) -> usize {
        let is_of = |tray: &usize| match self.label(*tray) {
            Some(label) => label == shape.description,
            None => (0..shape.geometry.segments()).any(|segment| {
                let end = shape.geometry.summed(segment);
                self.segment(shape, *tray, segment).is_some_and(|bytes| {
                    let check = bytes.get(end..end + 8).map(<[u8]>::to_vec);
                    let sum = bytes.get(..end).map(|summed| checksum(shape.seed, summed));
                    check.is_some() && check == sum.map(|sum| sum.to_le_bytes().to_vec())
                })
            }),
        };
        (0..shape.numbers.trays).filter(is_of).count()
    }
}

/// How many kinds of damage there are.
const KINDS: usize = 19;

/// Whether a stripe of a segment has the symbols that it should have.
fn is_right(shape: &Shape, found: &[u8], truth: &[u8], stripe: usize, stripes: usize) -> bool {
    let width = shape.description.field.width();
    (0..shape.numbers.layers).all(|layer| {
        let at = 24 + (layer * stripes + stripe) * width;
        found.get(at..at + width) == Some(&truth[at..at + width])
    })
}

/// The shape of the cabinet of a tray.
fn shape_of(tray: &[u8]) -> Shape {
    let label = Label::parse(&tray[..512]).expect("it is labelled");
    Shape::new(Path::new("c"), label.cabinet).expect("it is admissible")
}

/// Whether it can be told that the cabinet is the one that it is.
fn is_told(world: &World, damaged: &Damaged) -> bool {
    let needed = world.shape.numbers.dimension;
    let weight = |shape: &Shape| {
        let votes = damaged.votes(shape);
        (votes >= needed, votes)
    };
    let own = weight(&world.shape);
    let text = damaged.disk.get("c/cabinet.txt");
    let text = text.and_then(|bytes| Description::parse(&bytes));
    let is_described = text == Some(world.shape.description);
    let is_known = is_described || {
        let trays = 0..world.shape.numbers.trays;
        trays
            .into_iter()
            .any(|tray| damaged.label(tray) == Some(world.shape.description))
    };
    let others = [&world.stale[0], &world.foreign[0]].map(|tray| weight(&shape_of(tray)));
    let most = others.iter().max().copied().unwrap_or_default();
    is_known && own.1 > 0 && ((own.0 && is_described) || own > most)
}

/// One trial.
fn trial(world: &World, dice: &mut Dice, tally: &mut BTreeMap<&'static str, usize>) {
    let damaged = Damaged::new(world, dice);
    let words = damaged.words.join(", ");
    let needed = world.shape.numbers.dimension;
    // With no tray to spare in several segments, a tray that lost its checksum is not told from a
    // wrong one.
    let is_one = world.shape.geometry.segments() == 1;
    let right = match damaged.right(world, false) {
        right if right > needed || is_one => right,
        _ => damaged.right(world, true),
    };
    let told = is_told(world, &damaged);
    let mut count = |what| *tally.entry(what).or_default() += 1;
    let disk = damaged.disk.copy();
    let got = run(&disk, "get c back");
    let wanted = disk.get("data");
    let is_own = disk.get("back") == wanted;
    match is_done(got.status) {
        true if is_own => count("given"),
        true => {
            count("another cabinet's");
            assert!(!told, "{words}: another's data: {got:?}");
            let back = disk.get("back");
            let known = [disk.get("older"), disk.get("elsewhere")];
            assert!(known.contains(&back), "{words}: {got:?}");
        }
        false if !told => count("not told"),
        false if right < needed => count("too few"),
        false => panic!("{words}: {right} right of {needed}: {got:?}"),
    }
    assert!(is_done(got.status) || disk.get("back").is_none(), "{words}");
    if got.status == 0 && is_own {
        judge_silence(world, &damaged, &words);
    }
    judge_parts(world, &damaged, dice, told, &words);
    judge_writers(world, &damaged, told, is_own, &words);
}

/// What ends with status 0 has said all that is wrong.
fn judge_silence(world: &World, damaged: &Damaged, words: &str) {
    let disk = damaged.disk.copy();
    let files = in_folder(&disk);
    let is_whole = |name: &String, bytes: &Vec<u8>| {
        name == "c/cabinet.txt" || files.get(name).is_some_and(|found| found == bytes)
    };
    let all = world
        .truth
        .iter()
        .all(|(name, bytes)| is_whole(name, bytes));
    let is_whole = all && damaged.spoilt.is_empty();
    let tested = run(&disk, "test c");
    assert!(tested.status != 0 || is_whole, "{words}: {tested:?}");
    let margin = run(&disk, "margin c");
    let is_silent = margin.status == 0 && margin.out == world.margin;
    assert!(!is_silent || is_whole, "{words}: {margin:?}");
}

/// Shares and reads are right.
fn judge_parts(world: &World, damaged: &Damaged, dice: &mut Dice, told: bool, words: &str) {
    let disk = damaged.disk.copy();
    let shared = run(&disk, "share c --host 0 --helper 1 sent");
    if is_done(shared.status) && told {
        assert!(
            disk.get("sent").as_ref() == Some(&world.share),
            "{words}: {shared:?}"
        );
    }
    let shape = &world.shape;
    let (tray, stripe) = (
        dice.below(shape.numbers.trays),
        dice.below(shape.description.stripes as usize),
    );
    let layers = shape.numbers.layers;
    let line = format!("read c --tray {tray} --stripe {stripe} --layers 0..{layers} --out part");
    let read = run(&disk, &line);
    if is_done(read.status) && told {
        let segment = shape.geometry.segment_of(stripe as u32);
        let stripes = shape.geometry.stripes_of(segment);
        let truth = &world.truth[&name(tray)][shape.geometry.offset(segment) as usize + 24..];
        let width = shape.description.field.width();
        let place = stripe - stripes.start as usize;
        let symbol = |layer: usize| &truth[(layer * stripes.len() + place) * width..][..width];
        let wanted: Vec<u8> = (0..layers)
            .flat_map(|layer| symbol(layer).to_vec())
            .collect();
        assert!(
            disk.get("part") == Some(wanted),
            "{words}: {line}: {read:?}"
        );
    }
}

/// The tray files among these.
fn trays(mut files: BTreeMap<String, Vec<u8>>) -> BTreeMap<String, Vec<u8>> {
    files.retain(|name, _| name.starts_with("c/tray") && name.ends_with(".img"));
    files
}

/// What a recovery and a repair write is right, and where they refuse, nothing is written.
fn judge_writers(world: &World, damaged: &Damaged, told: bool, is_own: bool, words: &str) {
    let truth = trays(world.truth.clone());
    for line in [
        "recover c".to_string(),
        format!("repair c {}", world.repair),
    ] {
        let disk = damaged.disk.copy();
        let before = in_folder(&disk);
        let ended = run(&disk, &line);
        let trial = format!("{words}: {line}: {ended:?}");
        let after = trays(in_folder(&disk));
        if !is_done(ended.status) {
            assert!(trays(before) == after, "{trial}: a tray is changed");
            // Where a newer cabinet's trays are there, an older one is not brought back.
            let is_recovery = line.starts_with("recover");
            let may = !is_own || !told || !is_recovery || ended.message.contains("be newer");
            assert!(may, "{trial}: get gives it");
            continue;
        }
        if !told {
            continue;
        }
        match line.starts_with("recover") {
            true => assert!(after == truth, "{trial}: a tray is wrong"),
            false => assert!(
                after[&name(1)] == truth[&name(1)],
                "{trial}: the tray is wrong"
            ),
        }
    }
    judge_fix(damaged, &truth, told, words);
}

/// What `fix` leaves is as it was or as it should be, and all of it where it is done.
fn judge_fix(damaged: &Damaged, truth: &BTreeMap<String, Vec<u8>>, told: bool, words: &str) {
    let disk = damaged.disk.copy();
    let before = trays(in_folder(&disk));
    let ended = run(&disk, "fix c");
    let trial = format!("{words}: fix c: {ended:?}");
    let after = trays(in_folder(&disk));
    if is_done(ended.status) && told {
        assert!(after == *truth, "{trial}: a tray is wrong");
    }
    for (name, bytes) in &after {
        let is_right = truth.get(name) == Some(bytes);
        let is_kept = before.get(name) == Some(bytes);
        assert!(is_right || is_kept || !told, "{trial}: {name} is wrong");
    }
}

#[test]
fn random_damage() {
    let number = |name: &str, usual: u64| {
        let asked = env::var(name).ok().and_then(|text| text.parse().ok());
        asked.unwrap_or(usual)
    };
    let (trials, seed) = (number("CABINET_TRIALS", 20), number("CABINET_SEED", 1));
    let mut tally = BTreeMap::new();
    for (layout, repair, lengths) in LAYOUTS {
        for length in lengths {
            let world = World::new(layout, repair, *length);
            for trial_number in 0..trials {
                let mut dice = Dice(seed ^ (trial_number << 20) ^ (*length as u64) << 1);
                trial(&world, &mut dice, &mut tally);
            }
        }
    }
    println!("{tally:?}");
    assert!(
        tally.get("given").is_some_and(|given| *given > 100),
        "{tally:?}"
    );
}
