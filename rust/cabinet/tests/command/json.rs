//! Reports: each is one JSON object on one line, with the names that docs/JSON.md lists.

use crate::bench::{data, Bench};
use std::collections::BTreeMap;
use std::fs;
use std::path::Path;
use std::process::Command;

/// A value that was parsed.
#[derive(Clone, PartialEq, Debug)]
pub enum Value {
    Null,
    Flag(bool),
    Number(f64),
    Text(String),
    List(Vec<Value>),
    Object(BTreeMap<String, Value>),
}

impl Value {
    /// The value of a name, or of names with dots between.
    pub fn at(&self, path: &str) -> &Value {
        path.split('.').fold(self, |value, name| match value {
            Value::Object(fields) => fields
                .get(name)
                .unwrap_or_else(|| panic!("no {name} of {path} in {fields:?}")),
            other => panic!("{path}: {other:?} has no names"),
        })
    }

    pub fn text(&self) -> &str {
        match self {
            Value::Text(text) => text,
            other => panic!("{other:?} is no text"),
        }
    }

    pub fn number(&self) -> f64 {
        match self {
            Value::Number(number) => *number,
            other => panic!("{other:?} is no number"),
        }
    }

    pub fn list(&self) -> &[Value] {
        match self {
            Value::List(list) => list,
            other => panic!("{other:?} is no list"),
        }
    }

    /// The numbers of a list.
    pub fn numbers(&self) -> Vec<f64> {
        self.list().iter().map(Value::number).collect()
    }
}

/// The rest of a text under a strict reader: no spaces, no name twice, no other escapes than those
/// that JSON has.
struct Reader<'t> {
    rest: &'t str,
}

/// The value of a text that is nothing else.
pub fn parse(text: &str) -> Value {
    let mut reader = Reader { rest: text };
    let value = reader.value();
    assert_eq!(reader.rest, "", "after the value");
    value
}

impl Reader<'_> {
    fn next(&mut self) -> char {
        let letter = self.rest.chars().next().expect("more of the value");
        self.rest = &self.rest[letter.len_utf8()..];
        letter
    }

    fn takes(&mut self, word: &str) -> bool {
        match self.rest.strip_prefix(word) {
            Some(rest) => {
                self.rest = rest;
                true
            }
            None => false,
        }
    }

    fn value(&mut self) -> Value {
        match self.rest.chars().next() {
            Some('{') => self.object(),
            Some('[') => self.list(),
            Some('"') => Value::Text(self.text()),
            _ if self.takes("null") => Value::Null,
            _ if self.takes("true") => Value::Flag(true),
            _ if self.takes("false") => Value::Flag(false),
            _ => self.number(),
        }
    }

    fn number(&mut self) -> Value {
        let end = self
            .rest
            .find(|letter: char| !"-0123456789.".contains(letter));
        let (number, rest) = self.rest.split_at(end.unwrap_or(self.rest.len()));
        let digits = number.trim_start_matches('-');
        let starts_well = digits == "0" || digits.starts_with("0.") || !digits.starts_with('0');
        assert!(starts_well && !digits.ends_with('.'), "number {number}");
        self.rest = rest;
        Value::Number(number.parse().expect("a number"))
    }

    fn text(&mut self) -> String {
        assert_eq!(self.next(), '"');
        let mut text = String::new();
        loop {
            match self.next() {
                '"' => return text,
                '\\' => text.push(self.escaped()),
                letter if letter < ' ' => panic!("a bare control character"),
                letter => text.push(letter),
            }
        }
    }

    fn escaped(&mut self) -> char {
        match self.next() {
            'n' => '\n',
            letter @ ('"' | '\\') => letter,
            'u' => {
                let (digits, rest) = self.rest.split_at(4);
                self.rest = rest;
                let number = u32::from_str_radix(digits, 16).expect("four digits");
                char::from_u32(number).expect("a letter")
            }
            other => panic!("escape {other}"),
        }
    }

    fn list(&mut self) -> Value {
        let mut values = Vec::new();
        self.next();
        while !self.takes("]") {
            assert!(values.is_empty() || self.takes(","), "{}", self.rest);
            values.push(self.value());
        }
        Value::List(values)
    }

    fn object(&mut self) -> Value {
        let mut fields = BTreeMap::new();
        self.next();
        while !self.takes("}") {
            assert!(fields.is_empty() || self.takes(","), "{}", self.rest);
            let name = self.text();
            assert!(self.takes(":"), "{}", self.rest);
            let value = self.value();
            assert!(fields.insert(name.clone(), value).is_none(), "{name} twice");
        }
        Value::Object(fields)
    }
}

/// The report of a line, which must end so.
pub fn report(bench: &Bench, status: i32, line: &str) -> Value {
    let ended = bench.run(&format!("{line} --json"));
    assert_eq!(ended.status, status, "{line}: {}{}", ended.out, ended.err);
    let text = ended.out.strip_suffix('\n').expect("a line");
    assert!(!text.contains('\n'), "{line}: one line: {text}");
    let value = parse(text);
    assert_eq!(value.at("json"), &Value::Number(1.0));
    assert_eq!(value.at("command").text(), line.split(' ').next().unwrap());
    assert_eq!(value.at("status").number(), f64::from(status));
    let message = match value.at("message") {
        Value::Null => String::new(),
        words => format!("cabinet: {}\n", words.text()),
    };
    assert_eq!(ended.err, message, "{line}");
    value
}

#[test]
fn the_reader_is_strict() {
    assert_eq!(parse("[1,-2.5,\"a\\u0001\\n\"]").list().len(), 3);
    for broken in ["[1,]", "{\"a\":1,\"a\":2}", "01", "1.", "\"\u{1}\"", "[1] "] {
        let parsed = std::panic::catch_unwind(|| parse(broken));
        assert!(parsed.is_err(), "{broken}");
    }
}

/// Lines with their status, in a folder that is made anew for each.
const LINES: [(&str, i32); 30] = [
    ("plan 4 3 8 3", 0),
    ("plan 5 4 15 4 --field 257", 0),
    ("plan 4 3 12 3", 1),
    ("plan 4 3 8", 64),
    ("choose --trays 30 --survive 6", 0),
    ("choose --trays 12 --survive 4 --size 1000000", 0),
    ("choose --trays 61 --survive 6", 1),
    ("store 4 3 8 3 --volume 9 data d", 0),
    ("store 4 3 8 3 --volume 9 nothing d", 74),
    ("get c back --replace", 0),
    ("get lost back --replace", 0),
    ("get wrong back --replace", 17),
    ("get gone back", 5),
    ("test c", 0),
    ("test lost", 16),
    ("test wrong", 65),
    ("scrub c", 0),
    ("scrub c --budget 9", 0),
    ("scrub wrong", 65),
    ("margin c", 0),
    ("margin gone", 0),
    ("inspect c/tray-00.img wrong/tray-07.img", 65),
    ("repair lost --lost 4", 0),
    ("repair lost --lost 4 --budget 9", 0),
    ("repair lost --lost 4,13", 3),
    ("recover lost", 0),
    ("recover wrong", 17),
    ("status lost", 0),
    ("fix wrong", 17),
    ("replace c 5", 0),
];

/// A cabinet (4, 3, 6, 3) of 40 stripes, whole, with a tray lost, with a tray wrong, and with too few.
fn folders() -> Bench {
    let bench = Bench::new();
    bench.write("data", &data(3_800));
    for folder in ["c", "lost", "wrong", "gone"] {
        bench.done(&format!("store 4 3 6 3 --volume 7 data {folder}"));
    }
    bench.remove("lost/tray-04.img");
    bench.flip("wrong/tray-07.img", 600);
    (0..7).for_each(|tray| bench.remove(&format!("gone/tray-{tray:02}.img")));
    bench
}

/// Every name that is in a report, with those inside of it after a dot; of a list's values those of
/// the first that has any.
fn names(value: &Value, before: &str, found: &mut Vec<String>) {
    match value {
        Value::Object(fields) => fields.iter().for_each(|(name, value)| {
            let name = format!("{before}{name}");
            names(value, &format!("{name}."), found);
            found.push(name);
        }),
        Value::List(values) => values.iter().for_each(|value| names(value, before, found)),
        _ => {}
    }
}

/// Every name that a report has is in docs/JSON.md.
#[test]
fn every_command_that_reports() {
    let page = Path::new(env!("CARGO_MANIFEST_DIR")).join("../../docs/JSON.md");
    let page = fs::read_to_string(page).expect("docs/JSON.md is there");
    let bench = folders();
    let kept = "mkdir kept && mv c lost wrong gone kept";
    assert_eq!(bench.shell(kept).status, 0);
    for (line, status) in LINES {
        let anew = "rm -rf c lost wrong gone d back && cp -r kept/. .";
        assert_eq!(bench.shell(anew).status, 0, "{line}");
        let value = report(&bench, status, line);
        let mut found = Vec::new();
        names(&value, "", &mut found);
        for name in found {
            let last = name.rsplit('.').next().expect("a name");
            assert!(page.contains(&format!("`{last}`")), "{line}: {name}");
        }
    }
}

/// What another reader makes of the same texts.
#[test]
fn as_python_reads_them() {
    if Command::new("python3").arg("--version").output().is_err() {
        println!("not run: there is no python3 here");
        return;
    }
    let bench = folders();
    for (line, _) in LINES {
        let text = bench.run(&format!("{line} --json")).out;
        bench.write("report", text.as_bytes());
        let lines = "python3 -c 'import json,sys; json.load(open(\"report\"), parse_constant=1)'";
        let ended = bench.shell(lines);
        assert_eq!(ended.status, 0, "{line}: {text}{}", ended.err);
    }
}

#[test]
fn figures_are_numbers() {
    let bench = folders();
    let plan = report(&bench, 0, "plan 10 3 24 9");
    assert_eq!(plan.at("layout").numbers(), [10.0, 3.0, 24.0, 9.0, 0.0]);
    assert_eq!(plan.at("L").number(), 1024.0);
    assert_eq!(plan.at("traffic").number(), 4608.0);
    let share = plan.at("data_percent").number();
    assert!((share - 100.0 * 24.0 * 4096.0 / (30.0 * 4128.0)).abs() < 1e-9);
    let test = report(&bench, 65, "test wrong");
    assert_eq!(test.at("bad").number(), 1.0);
    let fault = &test.at("faults").list()[0];
    assert_eq!(fault.at("tray").number(), 7.0);
    assert_eq!(fault.at("fault").text(), "wrong_symbols");
    assert_eq!(fault.at("stripes").list()[0].numbers(), [24.0, 24.0]);
    let margin = report(&bench, 0, "margin gone");
    assert_eq!(margin.at("margin").number(), -1.0);
    let got = report(&bench, 5, "get gone back");
    assert!(got.at("message").text().contains("any 6 may be lost"));
}

/// Names of folders with letters that must be escaped, or are no text.
#[test]
fn any_name_of_a_folder() {
    let bench = folders();
    let odd = "a\"b\\c\u{1}\n\u{e9}";
    fs::rename(bench.path("c"), bench.path(odd)).expect("it can be renamed");
    let mut command = bench.command("status --json --");
    let out = command.arg(odd).output().expect("it can be run").stdout;
    let value = parse(String::from_utf8(out).expect("text").trim_end_matches('\n'));
    assert_eq!(value.at("cabinet.folder").text(), odd);
    assert_eq!(value.at("status").number(), 0.0);
    // What is no text is replaced, and the report is still one.
    use std::os::unix::ffi::OsStrExt;
    let none = std::ffi::OsStr::from_bytes(b"\xff\xfe");
    fs::rename(bench.path(odd), bench.path(".").join(none)).expect("it can be renamed");
    let mut command = bench.command("margin --json --");
    let out = command.arg(none).output().expect("it can be run").stdout;
    let value = parse(String::from_utf8(out).expect("text").trim_end_matches('\n'));
    assert_eq!(value.at("cabinet.folder").text(), "\u{fffd}\u{fffd}");
}

/// Commands that do not report know no such setting.
#[test]
fn others_have_none() {
    let bench = folders();
    for line in [
        "share c --host 0 --helper 1 out",
        "demo",
        "read c --tray 1 --layers 0..1",
    ] {
        let message = bench.fails(64, &format!("{line} --json"));
        assert!(
            message.contains("there is no setting --json here"),
            "{message}"
        );
    }
}
