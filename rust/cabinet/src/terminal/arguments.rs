//! The words of a command line: plain words, and settings that begin with `--`.

use crate::code::layout;
use crate::failure::Failure;
use gesarumbo::Layout;
use std::ffi::{OsStr, OsString};
use std::ops::Range;
use std::str::FromStr;

/// A setting that a command knows.
#[derive(Clone, Copy)]
pub struct Setting {
    pub name: &'static str,
    /// What its value is called, if it takes one.
    pub value: Option<&'static str>,
    /// What it is for, in words.
    pub words: &'static str,
    /// Whether it may be given more than once.
    repeats: bool,
}

impl Setting {
    /// A setting without a value.
    pub const fn plain(name: &'static str, words: &'static str) -> Setting {
        Setting {
            name,
            value: None,
            words,
            repeats: false,
        }
    }

    /// A setting with a value.
    pub const fn with(name: &'static str, value: &'static str, words: &'static str) -> Setting {
        Setting {
            name,
            value: Some(value),
            words,
            repeats: false,
        }
    }

    /// The same setting, which may be given more than once.
    pub const fn repeated(self) -> Setting {
        Setting {
            repeats: true,
            ..self
        }
    }

    /// Whether it may be given more than once.
    pub const fn repeats(&self) -> bool {
        self.repeats
    }
}

/// A command line, sorted into words and settings.
#[derive(Clone)]
pub struct Arguments {
    words: Vec<OsString>,
    given: Vec<(&'static str, OsString)>,
}

impl Arguments {
    /// Sorts the words after the command's name; only known settings pass.
    pub fn parse(raw: &[OsString], known: &[Setting]) -> Result<Arguments, Failure> {
        let mut arguments = Arguments {
            words: Vec::new(),
            given: Vec::new(),
        };
        let mut rest = raw.iter();
        while let Some(word) = rest.next() {
            if word == "--" {
                arguments.words.extend(rest.cloned());
                break;
            }
            match word.to_str() {
                Some(text) if text.starts_with("--") => arguments.set(text, known, &mut rest)?,
                _ => arguments.words.push(word.clone()),
            }
        }
        Ok(arguments)
    }

    /// Takes in one setting, `--name`, `--name value` or `--name=value`.
    fn set<'a>(
        &mut self,
        text: &str,
        known: &[Setting],
        rest: &mut impl Iterator<Item = &'a OsString>,
    ) -> Result<(), Failure> {
        let (name, joined) = match text.split_once('=') {
            Some((name, value)) => (name, Some(OsString::from(value))),
            None => (text, None),
        };
        let Some(setting) = known.iter().find(|setting| setting.name == name) else {
            return Err(usage(format!("there is no setting {name} here")));
        };
        if self.has(*setting) && !setting.repeats {
            return Err(usage(format!("{name} is given twice")));
        }
        let value = match setting.value {
            None if joined.is_some() => return Err(usage(format!("{name} takes no value"))),
            None => OsString::new(),
            Some(_) => joined
                .or_else(|| rest.next().cloned())
                .ok_or_else(|| usage(format!("{name} needs a value")))?,
        };
        self.given.push((setting.name, value));
        Ok(())
    }

    /// The plain words, exactly as many as are named.
    pub fn words<const N: usize>(&self, names: [&str; N]) -> Result<[&OsStr; N], Failure> {
        let found: Vec<&OsStr> = self.words.iter().map(OsString::as_os_str).collect();
        <[&OsStr; N]>::try_from(found).map_err(|found| {
            let wanted = match N {
                0 => "no words".to_string(),
                _ => names.join(" "),
            };
            usage(format!("expected {wanted}, found {} words", found.len()))
        })
    }

    /// The first plain word, and the line without it.
    pub fn action(&self) -> Result<(String, Arguments), Failure> {
        let mut rest = self.clone();
        match self.words.first() {
            Some(word) => {
                rest.words.remove(0);
                Ok((word.to_string_lossy().into_owned(), rest))
            }
            None => Err(usage("expected one word or more".to_string())),
        }
    }

    /// The numbers B, u, k, d of a layout, or B, u, k, d, E, and the plain words after them, exactly
    /// as many as are named.
    pub fn layout_and<const N: usize>(
        &self,
        names: [&str; N],
    ) -> Result<(Layout, [&OsStr; N]), Failure> {
        let rest = self.words.len().saturating_sub(N);
        let (numbers, words) = self.words.split_at(rest);
        let words: Vec<&OsStr> = words.iter().map(OsString::as_os_str).collect();
        let named = ["B", "u", "k", "d", "E"].iter().zip(numbers);
        let numbers: Result<Vec<u32>, _> = named.map(|(name, word)| number(name, word)).collect();
        let layout = layout::of(&numbers?).filter(|_| rest <= 5);
        match (layout, <[&OsStr; N]>::try_from(words)) {
            (Some(layout), Ok(words)) => Ok((layout, words)),
            _ => {
                let wanted = [&["B", "u", "k", "d", "[E]"][..], &names]
                    .concat()
                    .join(" ");
                let found = self.words.len();
                Err(usage(format!("expected {wanted}, found {found} words")))
            }
        }
    }

    /// The plain words, one or more of them.
    pub fn some_words(&self, name: &str) -> Result<&[OsString], Failure> {
        if self.words.is_empty() {
            return Err(usage(format!("expected one {name} or more")));
        }
        Ok(&self.words)
    }

    /// Whether the setting was given.
    pub fn has(&self, setting: Setting) -> bool {
        self.value(setting).is_some()
    }

    /// The setting's value, if it was given.
    pub fn value(&self, setting: Setting) -> Option<&OsStr> {
        self.values(setting).first().copied()
    }

    /// The setting's values, in the order given.
    pub fn values(&self, setting: Setting) -> Vec<&OsStr> {
        let given = self.given.iter().filter(|(name, _)| *name == setting.name);
        given.map(|(_, value)| value.as_os_str()).collect()
    }

    /// The setting's number, if it was given.
    pub fn number<T: FromStr>(&self, setting: Setting) -> Result<Option<T>, Failure> {
        let value = self.value(setting);
        value.map(|word| number(setting.name, word)).transpose()
    }

    /// The setting's list of numbers with commas between, if it was given.
    pub fn list(&self, setting: Setting) -> Result<Option<Vec<u32>>, Failure> {
        let value = self.value(setting);
        value.map(|word| list(setting.name, word)).transpose()
    }

    /// The setting's two numbers A..B, if it was given.
    pub fn range(&self, setting: Setting) -> Result<Option<Range<u32>>, Failure> {
        let value = self.value(setting);
        value.map(|word| range(setting.name, word)).transpose()
    }
}

/// What was given of a setting that the command cannot do without.
pub fn needed<T>(setting: Setting, given: Option<T>) -> Result<T, Failure> {
    given.ok_or_else(|| usage(format!("{} is needed", setting.name)))
}

/// A whole number in a word.
pub fn number<T: FromStr>(name: &str, word: &OsStr) -> Result<T, Failure> {
    let parsed = word.to_str().and_then(|text| text.parse().ok());
    parsed.ok_or_else(|| not_a_number(name, word))
}

/// Numbers with commas between; an empty word is an empty list.
pub fn list(name: &str, word: &OsStr) -> Result<Vec<u32>, Failure> {
    match word.to_str() {
        Some("") => Ok(Vec::new()),
        Some(text) => text
            .split(',')
            .map(|part| number(name, OsStr::new(part)))
            .collect(),
        None => Err(not_a_number(name, word)),
    }
}

/// Two numbers with two dots between.
fn range(name: &str, word: &OsStr) -> Result<Range<u32>, Failure> {
    let Some((start, end)) = word.to_str().and_then(|text| text.split_once("..")) else {
        let found = word.to_string_lossy();
        return Err(usage(format!("{name}: '{found}' is no run A..B")));
    };
    Ok(number(name, OsStr::new(start))?..number(name, OsStr::new(end))?)
}

fn usage(words: String) -> Failure {
    Failure::Usage(words)
}

fn not_a_number(name: &str, word: &OsStr) -> Failure {
    usage(format!(
        "{name}: '{}' is no whole number in range",
        word.to_string_lossy()
    ))
}
