//! What the tests of the command share: a temporary folder in which it is run.

use std::fs;
use std::path::{Path, PathBuf};
use std::process::Command;
use std::sync::atomic::{AtomicUsize, Ordering};

/// What a run printed and how it ended.
pub struct Ended {
    pub status: i32,
    pub out: String,
    pub err: String,
}

/// A temporary folder, removed when the test is over.
pub struct Bench {
    place: PathBuf,
}

impl Bench {
    pub fn new() -> Bench {
        static COUNT: AtomicUsize = AtomicUsize::new(0);
        let number = COUNT.fetch_add(1, Ordering::Relaxed);
        let name = format!("cabinet-test-{}-{number}", std::process::id());
        let place = std::env::temp_dir().join(name);
        fs::create_dir(&place).expect("a temporary folder can be made");
        Bench { place }
    }

    /// A cabinet (4, 3, 8, 3), volume 7, in the folder `c`, with data that fill it.
    pub fn with_cabinet() -> Bench {
        let bench = Bench::new();
        bench.write("data", &data(128));
        bench.done("store 4 3 8 3 --volume 7 data c");
        bench
    }

    /// A cabinet (5, 4, 15, 4) in the field of 257, volume 7, in the folder `c`, with data that fill
    /// it.
    pub fn with_racks_of_four() -> Bench {
        let bench = Bench::new();
        bench.write("data", &data(480));
        bench.done("store 5 4 15 4 --volume 7 --field 257 data c");
        bench
    }

    /// A cabinet (6, 3, 5, 4, 1), in which one share may be wrong, volume 7, in the folder `c`, with
    /// data that fill it.
    pub fn with_a_stale_rack() -> Bench {
        let bench = Bench::new();
        bench.write("data", &data(320));
        bench.done("store 6 3 5 4 1 --volume 7 data c");
        bench
    }

    /// A cabinet (4, 3, 8, 3) of the first format, volume 7, with three stripes, in the folder
    /// `first`: as it was written when there was no other format.
    pub fn with_first_format() -> Bench {
        let bench = Bench::new();
        let kept = Path::new(env!("CARGO_MANIFEST_DIR")).join("tests/first-format");
        fs::create_dir(bench.path("first")).expect("a folder can be made");
        for entry in fs::read_dir(kept).expect("it is kept") {
            let entry = entry.expect("an entry can be read");
            let copy = bench.path("first").join(entry.file_name());
            fs::copy(entry.path(), copy).expect("a file can be copied");
        }
        bench
    }

    /// A file in the folder.
    pub fn path(&self, name: &str) -> PathBuf {
        self.place.join(name)
    }

    pub fn read(&self, name: &str) -> Vec<u8> {
        fs::read(self.path(name)).unwrap_or_else(|error| panic!("{name}: {error}"))
    }

    pub fn write(&self, name: &str, bytes: &[u8]) {
        fs::write(self.path(name), bytes).unwrap_or_else(|error| panic!("{name}: {error}"));
    }

    pub fn remove(&self, name: &str) {
        fs::remove_file(self.path(name)).unwrap_or_else(|error| panic!("{name}: {error}"));
    }

    pub fn exists(&self, name: &str) -> bool {
        self.path(name).exists()
    }

    /// Writes one byte over another.
    pub fn poke(&self, name: &str, at: usize, byte: u8) {
        let mut bytes = self.read(name);
        bytes[at] = byte;
        self.write(name, &bytes);
    }

    /// Changes bits of a symbol of a tray; its checksum stays as it was.
    pub fn flip(&self, name: &str, at: usize) {
        let byte = self.read(name)[at];
        self.poke(name, at, byte ^ 0x40);
    }

    /// Changes bits of a symbol of a tray of one segment, and its checksum with it: as if it had been
    /// written so.
    pub fn forge(&self, name: &str, at: usize) {
        self.flip(name, at);
        self.sum(name);
    }

    /// Writes the right checksum of a tray of one segment.
    pub fn sum(&self, name: &str) {
        let mut bytes = self.read(name);
        let end = bytes.len() - 8;
        let check = checksum(seed(&bytes), &bytes[LABEL..end]);
        bytes[end..].copy_from_slice(&check.to_le_bytes());
        self.write(name, &bytes);
    }

    /// Every file below a folder, by name, with what it holds; but for the record of the last scrub,
    /// which says when that was and which no command needs.
    pub fn snapshot(&self, folder: &str) -> Vec<(String, Vec<u8>)> {
        let mut files: Vec<_> = list(&self.path(folder))
            .into_iter()
            .filter(|path| !path.ends_with("scrubbed.txt"))
            .map(|path| {
                let bytes = fs::read(&path).expect("a file can be read");
                (path.display().to_string(), bytes)
            })
            .collect();
        files.sort();
        files
    }

    /// The command on the words of a line, not run yet.
    pub fn command(&self, line: &str) -> Command {
        let mut command = Command::new(env!("CARGO_BIN_EXE_cabinet"));
        command
            .args(line.split_whitespace())
            .current_dir(&self.place);
        command
    }

    /// Runs the command on the words of a line.
    pub fn run(&self, line: &str) -> Ended {
        ended(&mut self.command(line))
    }

    /// Runs lines of the shell, in which `$cabinet` is the command.
    pub fn shell(&self, lines: &str) -> Ended {
        let mut command = Command::new("sh");
        command
            .args(["-c", lines])
            .env("cabinet", env!("CARGO_BIN_EXE_cabinet"))
            .current_dir(&self.place);
        ended(&mut command)
    }

    /// Runs a line that must be done, and gives what it printed.
    pub fn done(&self, line: &str) -> String {
        let ended = self.run(line);
        assert_eq!(ended.status, 0, "{line}: {}{}", ended.out, ended.err);
        assert_eq!(ended.err, "", "{line}");
        ended.out
    }

    /// Runs a line that must do its work and end with this status, and gives what it printed.
    pub fn ends(&self, status: i32, line: &str) -> String {
        let ended = self.run(line);
        assert_eq!(ended.status, status, "{line}: {}{}", ended.out, ended.err);
        assert_eq!(ended.err, "", "{line}");
        ended.out
    }

    /// Runs a line that must end with this status, and gives its message.
    pub fn fails(&self, status: i32, line: &str) -> String {
        let ended = self.run(line);
        assert_eq!(ended.status, status, "{line}: {}{}", ended.out, ended.err);
        assert!(ended.err.starts_with("cabinet: "), "{line}: {}", ended.err);
        ended.err
    }

    /// As `fails`, for a refusal: the message must name its number, and no file may have changed.
    pub fn refused(&self, number: i32, line: &str) -> String {
        let before = self.snapshot(".");
        let message = self.fails(number, line);
        let words = format!("refused ({number}): ");
        assert!(message.contains(&words), "{line}: {message}");
        assert!(before == self.snapshot("."), "{line}: a file has changed");
        message
    }
}

/// Bytes of a tray's label, and of a label and a header.
pub const LABEL: usize = 512;
pub const SYMBOLS: usize = LABEL + 24;

/// CRC-64 of xz, bit by bit.
pub fn checksum(start: u64, bytes: &[u8]) -> u64 {
    let step = |sum: u64| match sum & 1 {
        1 => (sum >> 1) ^ 0xC96C_5795_D787_0F42,
        _ => sum >> 1,
    };
    let add = |sum: u64, byte: &u8| (0..8).fold(sum ^ u64::from(*byte), |sum, _| step(sum));
    !bytes.iter().fold(!start, add)
}

/// Where the checksums of a tray's segments start: the checksum of its label's lines but the tray's.
pub fn seed(tray: &[u8]) -> u64 {
    let is_own = |at: &usize| tray[*at..].starts_with(b"\ntray ");
    let end = (0..LABEL).find(is_own).expect("a label has its tray") + 1;
    checksum(0, &tray[..end])
}

/// A checkpoint that was changed, with the checksum that goes with it.
pub fn checked(checkpoint: &[u8]) -> Vec<u8> {
    let line = checkpoint
        .iter()
        .position(|byte| *byte == b'\n')
        .unwrap_or(0)
        + 1;
    let end = checkpoint[line..].iter().position(|byte| *byte == b'\n');
    let (lines, rest) = checkpoint.split_at(line + end.unwrap_or(0));
    let lines = String::from_utf8_lossy(lines).into_owned();
    let (lines, _) = lines.rsplit_once(" check ").unwrap_or((&lines, ""));
    let rest = rest.strip_prefix(b"\n").unwrap_or_default();
    let check = checksum(checksum(0, lines.as_bytes()), rest);
    [format!("{lines} check {check:016x}\n").as_bytes(), rest].concat()
}

/// Runs a command up to its end.
pub fn ended(command: &mut Command) -> Ended {
    let output = command.output().expect("the command can be run");
    Ended {
        status: output.status.code().expect("the command ends by itself"),
        out: String::from_utf8(output.stdout).expect("the output is text"),
        err: String::from_utf8(output.stderr).expect("the messages are text"),
    }
}

impl Drop for Bench {
    fn drop(&mut self) {
        let _ = fs::remove_dir_all(&self.place);
    }
}

/// Files below a folder.
fn list(folder: &Path) -> Vec<PathBuf> {
    let entries = fs::read_dir(folder).expect("a folder can be read");
    entries
        .map(|entry| entry.expect("an entry can be read").path())
        .flat_map(|path| match path.is_dir() {
            true => list(&path),
            false => vec![path],
        })
        .collect()
}

/// Bytes that repeat only after a long while.
pub fn data(length: usize) -> Vec<u8> {
    (0..length)
        .map(|place| (place * 167 + place * place / 7) as u8)
        .collect()
}

/// No line is wider than a terminal, and there are no colour codes.
pub fn assert_readable(text: &str) {
    for line in text.lines() {
        assert!(line.chars().count() <= 80, "wide line: {line}");
        assert!(!line.contains('\x1b'), "colour: {line}");
    }
}
