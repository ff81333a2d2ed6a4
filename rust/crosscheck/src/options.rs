//! The command line.

use std::path::{Path, PathBuf};

pub const HELP: &str = "\
Compares the library with the second program and with the vectors.

crosscheck                 the gate's bounded run
crosscheck --long N        N random cases
crosscheck --write DIR     writes the vectors as the second program answers them
           --seed S        the random generator's seed
           --vectors DIR   the vectors' folder (tests/vectors of the repository)
           --help          this text

The exit status is 0 only if nothing differed.";

#[derive(Debug, PartialEq, Eq)]
pub struct Options {
    pub help: bool,
    /// A long run of so many random cases, in place of the bounded one.
    pub long: Option<u64>,
    /// The folder to write the vectors to, in place of a comparison.
    pub write: Option<PathBuf>,
    pub seed: u64,
    pub vectors: PathBuf,
}

impl Default for Options {
    fn default() -> Options {
        let root = Path::new(env!("CARGO_MANIFEST_DIR")).join("../..");
        Options {
            help: false,
            long: None,
            write: None,
            seed: 1,
            vectors: root.join("tests/vectors"),
        }
    }
}

impl Options {
    pub fn parse(mut words: impl Iterator<Item = String>) -> Result<Options, String> {
        let mut options = Options::default();
        while let Some(word) = words.next() {
            let mut value = || words.next().ok_or(format!("{word} needs a value"));
            match word.as_str() {
                "--help" => options.help = true,
                "--long" => options.long = Some(number(&value()?)?),
                "--write" => options.write = Some(value()?.into()),
                "--seed" => options.seed = number(&value()?)?,
                "--vectors" => options.vectors = value()?.into(),
                _ => return Err(format!("{word} is not known; see --help")),
            }
        }
        Ok(options)
    }
}

fn number(word: &str) -> Result<u64, String> {
    word.parse().map_err(|_| format!("{word} is no number"))
}

#[cfg(test)]
mod tests {
    use super::*;

    fn parse(words: &[&str]) -> Result<Options, String> {
        Options::parse(words.iter().map(|word| word.to_string()))
    }

    #[test]
    fn words_are_understood() {
        assert_eq!(parse(&[]), Ok(Options::default()));
        let all = parse(&["--long", "5", "--seed", "7", "--vectors", "here", "--help"]).unwrap();
        assert_eq!((all.long, all.seed, all.help), (Some(5), 7, true));
        assert_eq!(all.vectors, Path::new("here"));
        let write = parse(&["--write", "there"]).unwrap().write;
        assert_eq!(write.as_deref(), Some(Path::new("there")));
    }

    #[test]
    fn other_words_are_not() {
        let wrong = [&["--fast"][..], &["--long"], &["--write"], &["--seed", "x"]];
        assert!(wrong.iter().all(|words| parse(words).is_err()));
    }
}
