//! A disk in memory that loses what was not synced, fails where it is told to, and is cut after any
//! call.
//!
//! What POSIX leaves open is left open here: of the writes to a file since its last sync any may be
//! on the disk, and of the changes of a folder's names since its last sync any, each whole.

use super::{Disk, Entry, Handle, Hold, Kind, Lock};
use std::cell::RefCell;
use std::collections::BTreeMap;
use std::ffi::OsString;
use std::io::{self, Read, Write};
use std::ops::Range;
use std::path::{Path, PathBuf};
use std::rc::Rc;

/// A file's contents now, those on the disk, and what was changed in between.
#[derive(Clone, Default)]
struct Contents {
    now: Vec<u8>,
    synced: Vec<u8>,
    pending: Vec<Change>,
    mode: u32,
    /// Bytes that cannot be read.
    bad: Vec<Range<u64>>,
}

#[derive(Clone)]
enum Change {
    Write(u64, Vec<u8>),
    Length(u64),
}

/// A change of names.
#[derive(Clone)]
enum Naming {
    Name(PathBuf, u64),
    Folder(PathBuf),
    Remove(PathBuf),
    Rename(PathBuf, PathBuf, u64),
}

#[derive(Clone, Copy, PartialEq, Eq)]
enum Node {
    Folder,
    File(u64),
}

type Names = BTreeMap<PathBuf, Node>;

/// What a call does besides its work.
type Interruption = Box<dyn FnOnce(&Simulated)>;

#[derive(Default)]
struct State {
    files: BTreeMap<u64, Contents>,
    names: Names,
    synced: Names,
    pending: Vec<Naming>,
    calls: usize,
    /// No call after this one is done.
    cut: Option<usize>,
    /// A call that fails, and its error number.
    fault: Option<(usize, i32)>,
    interruption: Option<(usize, Interruption)>,
    shared: usize,
    exclusive: usize,
}

/// The disk.
#[derive(Clone, Default)]
pub struct Simulated(Rc<RefCell<State>>);

struct SimulatedFile {
    disk: Simulated,
    number: u64,
}

/// A pipe: what comes from it is the file `input`, and what goes into it the file `output`.
struct Pipe {
    disk: Simulated,
    at: usize,
}

impl Read for Pipe {
    fn read(&mut self, out: &mut [u8]) -> io::Result<usize> {
        self.disk.enter()?;
        let bytes = self.disk.get("input").unwrap_or_default();
        let left = bytes.get(self.at..).unwrap_or_default();
        // A pipe gives as much as it has, not as much as is asked for.
        let read = left.len().min(out.len()).min(30);
        out[..read].copy_from_slice(&left[..read]);
        self.at += read;
        Ok(read)
    }
}

impl Write for Pipe {
    fn write(&mut self, bytes: &[u8]) -> io::Result<usize> {
        self.disk.enter()?;
        let before = self.disk.get("output").unwrap_or_default();
        self.disk.put("output", &[&before[..], bytes].concat());
        Ok(bytes.len())
    }

    fn flush(&mut self) -> io::Result<()> {
        Ok(())
    }
}

struct SimulatedLock {
    disk: Simulated,
    hold: Hold,
}

impl Lock for SimulatedLock {}

impl Drop for SimulatedLock {
    fn drop(&mut self) {
        let mut state = self.disk.0.borrow_mut();
        match self.hold {
            Hold::Shared => state.shared -= 1,
            Hold::Exclusive => state.exclusive -= 1,
        }
    }
}

/// Which of the changes that were not synced are on the disk after a cut.
#[derive(Clone, Copy, Debug)]
pub enum Kept {
    None,
    All,
    /// All but one, by its place.
    But(usize),
    /// Only one.
    Only(usize),
    /// The first so many.
    First(usize),
    /// By a number without a pattern.
    Some(u64),
    /// Those whose bits are set.
    Set(u64),
    /// All, but only the first half of what each has written.
    Halves,
}

impl Kept {
    fn keeps(self, place: usize) -> bool {
        match self {
            Kept::None => false,
            Kept::All => true,
            Kept::But(one) => place != one,
            Kept::Only(one) => place == one,
            Kept::First(count) => place < count,
            Kept::Some(seed) => mixed(seed, place as u64) & 1 == 1,
            Kept::Set(bits) => (bits >> place) & 1 == 1,
            Kept::Halves => true,
        }
    }
}

fn mixed(seed: u64, place: u64) -> u64 {
    let mut mixed = seed ^ place.wrapping_mul(0x9E37_79B9_7F4A_7C15);
    mixed = (mixed ^ (mixed >> 30)).wrapping_mul(0xBF58_476D_1CE4_E5B9);
    mixed = (mixed ^ (mixed >> 27)).wrapping_mul(0x94D0_49BB_1331_11EB);
    mixed ^ (mixed >> 31)
}

impl Simulated {
    /// A disk with these files, all of it synced.
    pub fn with(files: &[(&str, &[u8])]) -> Simulated {
        let disk = Simulated::default();
        for (name, bytes) in files {
            disk.put(name, bytes);
        }
        disk
    }

    /// Puts a file there, with its folder, all of it synced.
    pub fn put(&self, name: &str, bytes: &[u8]) {
        let mut state = self.0.borrow_mut();
        let number = state.files.keys().next_back().map_or(1, |last| last + 1);
        let contents = Contents {
            now: bytes.to_vec(),
            synced: bytes.to_vec(),
            mode: 0o644,
            ..Contents::default()
        };
        state.files.insert(number, contents);
        let path = PathBuf::from(name);
        if let Some(folder) = path.parent().filter(|folder| *folder != Path::new("")) {
            state.names.insert(folder.to_path_buf(), Node::Folder);
            state.synced.insert(folder.to_path_buf(), Node::Folder);
        }
        state.names.insert(path.clone(), Node::File(number));
        state.synced.insert(path, Node::File(number));
    }

    /// Gives a file a second name.
    pub fn link(&self, name: &str, other: &str) {
        let mut state = self.0.borrow_mut();
        let node = state.names[Path::new(name)];
        state.names.insert(other.into(), node);
        state.synced.insert(other.into(), node);
    }

    /// What a file holds now.
    pub fn get(&self, name: &str) -> Option<Vec<u8>> {
        let state = self.0.borrow();
        match state.names.get(Path::new(name))? {
            Node::File(number) => Some(state.files[number].now.clone()),
            Node::Folder => None,
        }
    }

    /// Takes a file away.
    pub fn take(&self, name: &str) {
        let mut state = self.0.borrow_mut();
        state.names.remove(Path::new(name));
        state.synced.remove(Path::new(name));
    }

    /// Every file by its name, with what it holds now.
    pub fn files(&self) -> BTreeMap<String, Vec<u8>> {
        let state = self.0.borrow();
        let file = |(path, node): (&PathBuf, &Node)| match node {
            Node::File(number) => {
                Some((path.display().to_string(), state.files[number].now.clone()))
            }
            Node::Folder => None,
        };
        state.names.iter().filter_map(file).collect()
    }

    /// Makes bytes of a file unreadable.
    pub fn spoil(&self, name: &str, bytes: Range<u64>) {
        let mut state = self.0.borrow_mut();
        if let Node::File(number) = state.names[Path::new(name)] {
            let contents = state.files.get_mut(&number).expect("it is there");
            contents.bad.push(bytes);
        }
    }

    /// Sets a file's mode.
    pub fn set_mode(&self, name: &str, mode: u32) {
        let mut state = self.0.borrow_mut();
        if let Node::File(number) = state.names[Path::new(name)] {
            state.files.get_mut(&number).expect("it is there").mode = mode;
        }
    }

    pub fn mode(&self, name: &str) -> u32 {
        let state = self.0.borrow();
        match state.names[Path::new(name)] {
            Node::File(number) => state.files[&number].mode,
            Node::Folder => 0o755,
        }
    }

    /// Calls so far.
    pub fn calls(&self) -> usize {
        self.0.borrow().calls
    }

    pub fn cut_after(&self, calls: usize) {
        self.0.borrow_mut().cut = Some(calls);
    }

    pub fn fail_at(&self, call: usize, error: i32) {
        self.0.borrow_mut().fault = Some((call, error));
    }

    /// Does something before a call.
    pub fn interrupt_at(&self, call: usize, what: Interruption) {
        self.0.borrow_mut().interruption = Some((call, what));
    }

    /// How many changes of names, and of contents, are not synced.
    pub fn unsynced(&self) -> (usize, usize) {
        let state = self.0.borrow();
        let changes = state.files.values().map(|file| file.pending.len()).sum();
        (state.pending.len(), changes)
    }

    /// The disk after a cut, with these of the changes that were not synced.
    pub fn after_cut(&self, names: Kept, contents: Kept) -> Simulated {
        let state = self.0.borrow();
        let mut on_disk = state.synced.clone();
        for (place, change) in state.pending.iter().enumerate() {
            if names.keeps(place) {
                rename(&mut on_disk, change);
            }
        }
        let mut place = 0;
        let mut files = state.files.clone();
        for file in files.values_mut() {
            let mut bytes = file.synced.clone();
            for pending in std::mem::take(&mut file.pending) {
                match (contents, pending) {
                    (Kept::Halves, Change::Write(at, mut written)) => {
                        written.truncate(written.len() / 2);
                        change(&mut bytes, &Change::Write(at, written));
                    }
                    (_, pending) if contents.keeps(place) => change(&mut bytes, &pending),
                    _ => {}
                }
                place += 1;
            }
            (file.now, file.synced) = (bytes.clone(), bytes);
        }
        let after = State {
            files,
            names: on_disk.clone(),
            synced: on_disk,
            ..State::default()
        };
        Simulated(Rc::new(RefCell::new(after)))
    }

    /// A disk with the same contents, all of it synced, and no call made.
    pub fn copy(&self) -> Simulated {
        self.after_cut(Kept::All, Kept::All)
    }

    /// Every folder and file on the disk, with what it holds: what tells this disk from others.
    pub fn everything(&self) -> BTreeMap<PathBuf, Option<Vec<u8>>> {
        let state = self.0.borrow();
        let one = |(path, node): (&PathBuf, &Node)| match node {
            Node::File(number) => (path.clone(), Some(state.files[number].now.clone())),
            Node::Folder => (path.clone(), None),
        };
        state.names.iter().map(one).collect()
    }

    /// Counts a call, which fails if it is told to.
    fn enter(&self) -> io::Result<()> {
        let due = {
            let mut state = self.0.borrow_mut();
            state.calls += 1;
            let calls = state.calls;
            match state.interruption.take() {
                Some((call, what)) if call == calls => Some(what),
                other => {
                    state.interruption = other;
                    None
                }
            }
        };
        if let Some(what) = due {
            what(self);
        }
        let state = self.0.borrow();
        if state.cut.is_some_and(|cut| state.calls > cut) {
            return Err(io::Error::other("the power is cut"));
        }
        match state.fault {
            Some((call, error)) if call == state.calls => Err(io::Error::from_raw_os_error(error)),
            _ => Ok(()),
        }
    }

    fn node(&self, path: &Path) -> Option<Node> {
        let state = self.0.borrow();
        match path == Path::new(".") {
            true => Some(Node::Folder),
            false => state.names.get(path).copied(),
        }
    }

    fn file(&self, path: &Path) -> io::Result<u64> {
        match self.node(path) {
            Some(Node::File(number)) => Ok(number),
            Some(Node::Folder) => Err(io::Error::other("not a regular file")),
            None => Err(io::ErrorKind::NotFound.into()),
        }
    }

    fn handle(&self, number: u64) -> Box<dyn Handle> {
        Box::new(SimulatedFile {
            disk: self.clone(),
            number,
        })
    }

    fn entry(&self, number: u64) -> Entry {
        let state = self.0.borrow();
        let names = state.names.values();
        Entry {
            kind: Kind::File,
            length: state.files[&number].now.len() as u64,
            mode: state.files[&number].mode,
            links: names.filter(|node| **node == Node::File(number)).count() as u64,
            identity: (0, number),
        }
    }

    /// Changes names now, and on the disk when the folder is synced.
    fn name(&self, naming: Naming) {
        let mut state = self.0.borrow_mut();
        rename(&mut state.names, &naming);
        state.pending.push(naming);
    }
}

fn rename(names: &mut Names, naming: &Naming) {
    match naming {
        Naming::Name(path, number) => drop(names.insert(path.clone(), Node::File(*number))),
        Naming::Folder(path) => drop(names.insert(path.clone(), Node::Folder)),
        Naming::Remove(path) => drop(names.remove(path)),
        Naming::Rename(from, to, number) => {
            names.remove(from);
            names.insert(to.clone(), Node::File(*number));
        }
    }
}

fn change(bytes: &mut Vec<u8>, change: &Change) {
    match change {
        Change::Write(at, written) => {
            let end = *at as usize + written.len();
            if bytes.len() < end {
                bytes.resize(end, 0);
            }
            bytes[*at as usize..end].copy_from_slice(written);
        }
        Change::Length(length) => bytes.resize(*length as usize, 0),
    }
}

impl SimulatedFile {
    fn change(&self, what: Change) -> io::Result<()> {
        self.disk.enter()?;
        let mut state = self.disk.0.borrow_mut();
        let contents = state.files.get_mut(&self.number).expect("it is open");
        change(&mut contents.now, &what);
        contents.pending.push(what);
        Ok(())
    }
}

impl Handle for SimulatedFile {
    fn entry(&self) -> io::Result<Entry> {
        self.disk.enter()?;
        Ok(self.disk.entry(self.number))
    }

    fn read_at(&self, at: u64, out: &mut [u8]) -> io::Result<usize> {
        self.disk.enter()?;
        let state = self.disk.0.borrow();
        let contents = &state.files[&self.number];
        let end = at + out.len() as u64;
        if contents
            .bad
            .iter()
            .any(|bad| bad.start < end && at < bad.end)
        {
            return Err(io::Error::from_raw_os_error(5));
        }
        let bytes = contents.now.get(at as usize..).unwrap_or_default();
        let read = bytes.len().min(out.len());
        out[..read].copy_from_slice(&bytes[..read]);
        Ok(read)
    }

    fn write_at(&self, at: u64, bytes: &[u8]) -> io::Result<()> {
        self.change(Change::Write(at, bytes.to_vec()))
    }

    fn set_length(&self, length: u64) -> io::Result<()> {
        self.change(Change::Length(length))
    }

    fn set_mode(&self, mode: u32) -> io::Result<()> {
        self.disk.enter()?;
        let mut state = self.disk.0.borrow_mut();
        state.files.get_mut(&self.number).expect("it is open").mode = mode;
        Ok(())
    }

    fn sync(&self) -> io::Result<()> {
        self.disk.enter()?;
        let mut state = self.disk.0.borrow_mut();
        let contents = state.files.get_mut(&self.number).expect("it is open");
        contents.synced = contents.now.clone();
        contents.pending.clear();
        Ok(())
    }

    fn try_lock(&self) -> io::Result<bool> {
        self.disk.enter().map(|()| true)
    }
}

impl Disk for Simulated {
    fn look(&self, path: &Path) -> io::Result<Option<Entry>> {
        self.enter()?;
        Ok(self.node(path).map(|node| match node {
            Node::File(number) => self.entry(number),
            Node::Folder => Entry {
                kind: Kind::Folder,
                length: 0,
                mode: 0o755,
                links: 1,
                identity: (0, 0),
            },
        }))
    }

    fn open(&self, path: &Path) -> io::Result<Box<dyn Handle>> {
        self.enter()?;
        self.file(path).map(|number| self.handle(number))
    }

    fn change(&self, path: &Path) -> io::Result<Box<dyn Handle>> {
        self.open(path)
    }

    fn create(&self, path: &Path) -> io::Result<Box<dyn Handle>> {
        self.enter()?;
        if self.node(path).is_some() {
            return Err(io::ErrorKind::AlreadyExists.into());
        }
        let number = {
            let mut state = self.0.borrow_mut();
            let number = state.files.keys().next_back().map_or(1, |last| last + 1);
            let contents = Contents {
                mode: 0o644,
                ..Contents::default()
            };
            state.files.insert(number, contents);
            number
        };
        self.name(Naming::Name(path.to_path_buf(), number));
        Ok(self.handle(number))
    }

    fn rename(&self, from: &Path, to: &Path) -> io::Result<()> {
        self.enter()?;
        let number = self.file(from)?;
        self.name(Naming::Rename(from.to_path_buf(), to.to_path_buf(), number));
        Ok(())
    }

    fn remove(&self, path: &Path) -> io::Result<()> {
        self.enter()?;
        self.file(path)?;
        self.name(Naming::Remove(path.to_path_buf()));
        Ok(())
    }

    fn make_folder(&self, path: &Path) -> io::Result<()> {
        self.enter()?;
        self.name(Naming::Folder(path.to_path_buf()));
        Ok(())
    }

    fn remove_folder(&self, path: &Path) -> io::Result<()> {
        if !self.list(path)?.is_empty() {
            return Err(io::Error::other("not empty"));
        }
        self.name(Naming::Remove(path.to_path_buf()));
        Ok(())
    }

    fn list(&self, folder: &Path) -> io::Result<Vec<OsString>> {
        self.enter()?;
        if self.node(folder).is_none() {
            return Err(io::ErrorKind::NotFound.into());
        }
        let state = self.0.borrow();
        let within = state.names.keys().filter(|path| folder_of(path) == folder);
        Ok(within
            .filter_map(|path| path.file_name().map(OsString::from))
            .collect())
    }

    fn sync_folder(&self, folder: &Path) -> io::Result<()> {
        self.enter()?;
        let mut state = self.0.borrow_mut();
        let pending = std::mem::take(&mut state.pending);
        for naming in pending {
            let path = match &naming {
                Naming::Name(path, _) | Naming::Folder(path) | Naming::Remove(path) => path,
                Naming::Rename(_, to, _) => to,
            };
            match folder_of(path) == folder {
                true => rename(&mut state.synced, &naming),
                false => state.pending.push(naming),
            }
        }
        Ok(())
    }

    fn lock(&self, _: &Path, hold: Hold, wait: bool) -> io::Result<Option<Box<dyn Lock>>> {
        self.enter()?;
        let mut state = self.0.borrow_mut();
        let is_free = match hold {
            Hold::Shared => state.exclusive == 0,
            Hold::Exclusive => state.exclusive == 0 && state.shared == 0,
        };
        match hold {
            _ if !is_free && wait => return Err(io::Error::other("it would wait for ever")),
            _ if !is_free => return Ok(None),
            Hold::Shared => state.shared += 1,
            Hold::Exclusive => state.exclusive += 1,
        }
        let disk = self.clone();
        Ok(Some(Box::new(SimulatedLock { disk, hold })))
    }

    fn canonical(&self, folder: &Path) -> io::Result<PathBuf> {
        self.enter()?;
        Ok(folder.to_path_buf())
    }

    fn input(&self) -> Box<dyn Read> {
        Box::new(Pipe {
            disk: self.clone(),
            at: 0,
        })
    }

    fn output(&self) -> Box<dyn Write> {
        Box::new(Pipe {
            disk: self.clone(),
            at: 0,
        })
    }
}

fn folder_of(path: &Path) -> &Path {
    super::folder_of(path)
}

#[cfg(test)]
mod tests {
    use super::{Disk, Kept, Simulated};
    use std::path::Path;

    #[test]
    fn what_is_not_synced_may_be_lost() {
        let disk = Simulated::with(&[("c/old", b"old")]);
        let file = disk.create(Path::new("c/new")).expect("a new file");
        file.write_at(0, b"new").expect("room");
        disk.rename(Path::new("c/new"), Path::new("c/old"))
            .expect("a rename");
        let after = |names, contents| disk.after_cut(names, contents).get("c/old");
        assert_eq!(after(Kept::None, Kept::All), Some(b"old".to_vec()));
        assert_eq!(after(Kept::All, Kept::None), Some(Vec::new()));
        assert_eq!(after(Kept::All, Kept::All), Some(b"new".to_vec()));
        file.sync().expect("a sync");
        assert_eq!(after(Kept::All, Kept::None), Some(b"new".to_vec()));
        assert_eq!(after(Kept::None, Kept::None), Some(b"old".to_vec()));
        disk.sync_folder(Path::new("c")).expect("a sync");
        assert_eq!(after(Kept::None, Kept::None), Some(b"new".to_vec()));
    }

    #[test]
    fn calls_fail_and_end_where_they_are_told_to() {
        let disk = Simulated::with(&[("data", b"data")]);
        disk.fail_at(2, 5);
        disk.cut_after(3);
        let look = || disk.look(Path::new("data")).is_ok();
        assert_eq!(
            [look(), look(), look(), look(), look()],
            [true, false, true, false, false]
        );
        assert_eq!(disk.calls(), 5);
    }
}
