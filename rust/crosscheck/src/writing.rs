//! The vector files as the second program writes them: the library answers nothing here.
//!
//! The cases of the kept files stay, and each gets its answer anew, so a case is added to one by a
//! line with any answer. The files of drawn cases are made from nothing, with cases of every answer
//! that is due of a call. The files that came from outside are not written.

use crate::calls::{self, Call, Drawn, Group};
use crate::field::Field;
use crate::random::Random;
use crate::run::due;
use crate::source::Source;
use crate::vectors::{files, is_case, parse_case, rules_of, superseded, LANDED};
use std::collections::BTreeMap;
use std::fs;
use std::path::Path;

/// The files that came from outside, with answers of another program.
pub const OUTSIDE: [&str; 4] = [
    "document-01.txt",
    "request-w2.txt",
    "request-w4.txt",
    "request-w5.txt",
];
/// What the names of the drawn files begin with.
const DRAWN: &str = "drawn-";
/// The cases of a call are drawn in so many draws at most.
const MOST_DRAWS: usize = 1_000_000;

/// The text of each file, by its name.
pub type Texts = BTreeMap<String, String>;

/// Writes the files into a folder.
pub fn write(kept: &Path, folder: &Path) -> Result<(), String> {
    for (name, text) in texts(kept)? {
        let file = folder.join(name);
        fs::write(&file, text).map_err(|error| format!("{}: {error}", file.display()))?;
    }
    Ok(())
}

/// The files kept in a folder with each case answered anew, and the drawn ones.
pub fn texts(kept: &Path) -> Result<Texts, String> {
    let mut texts = Texts::new();
    for file in files(kept).map_err(|error| format!("{}: {error}", kept.display()))? {
        let name = file.file_name().unwrap_or_default().to_string_lossy();
        if name.starts_with(DRAWN) || OUTSIDE.contains(&name.as_ref()) {
            continue;
        }
        let text = fs::read_to_string(&file).map_err(|error| format!("{name}: {error}"))?;
        let text = answered(&text).map_err(|words| format!("{name}: {words}"))?;
        texts.insert(name.into_owned(), text);
    }
    let mut source = Source::new(0);
    let drawn = calls::drawn();
    texts.extend(drawn.iter().map(|file| text_of(&mut source, file)));
    Ok(texts)
}

/// A file with every case answered by the second program; those that a landed request has changed
/// stay as they are.
fn answered(text: &str) -> Result<String, String> {
    let (_, field) = rules_of(text)?;
    let line = |line: &str| match is_case(line) && !superseded(line, LANDED) {
        true => answered_line(field, line).map_err(|words| format!("{words} in: {line}")),
        false => Ok(line.to_string()),
    };
    let lines: Vec<String> = text.lines().map(line).collect::<Result<_, _>>()?;
    Ok(joined(&lines))
}

fn answered_line(field: Field, line: &str) -> Result<String, String> {
    let (case, _) = line.split_once(" > ").ok_or("no answer")?;
    let (call, inputs) = parse_case(field, case)?;
    Ok(format!("{case} > {}", (call.reference)(&inputs)))
}

/// The name of a file of drawn cases, and its text.
fn text_of(source: &mut Source, file: &Drawn) -> (String, String) {
    let name = format!("{DRAWN}{}", file.name);
    let symbols = file.group.field.symbols();
    let mut lines = vec![format!("# rules: field={symbols} w2=1 w4=1 w5=1 w12=1")];
    for call in &file.group.calls {
        let of_call = cases(source, file, call).into_iter().zip(1..);
        let line = |(case, number)| format!("{0} {name}-{0}-{number} - {case}", call.name);
        lines.extend(of_call.map(line));
    }
    (format!("{name}.txt"), joined(&lines))
}

/// Cases of a call: for each answer that is due as many as the file has, with the inputs and the
/// answer.
fn cases(source: &mut Source, file: &Drawn, call: &Call) -> Vec<String> {
    let group = &file.group;
    source.random = Random::new(seed(group, call));
    let count = |(errors, ground)| match ground {
        0 => ((errors, ground), file.done),
        _ => ((errors, ground), file.refused),
    };
    let mut left: BTreeMap<(u32, u32), usize> = BTreeMap::new();
    left.extend(due(group, call).into_iter().map(count));
    let mut cases = vec![];
    for _ in 0..MOST_DRAWS {
        if left.is_empty() {
            return cases;
        }
        let inputs = source.inputs(group.field, call);
        let words = inputs.to_string();
        if words.len() > file.longest {
            continue;
        }
        let answer = (call.reference)(&inputs);
        let key = (inputs.errors(), answer.refusal);
        if let Some(count) = left.get_mut(&key) {
            *count -= 1;
            cases.push(format!("{words} > {answer}"));
        }
        left.retain(|_, count| *count > 0);
    }
    panic!("{}: {} never answered {left:?}", group.name, call.name)
}

/// Each call of each group draws by a seed of its own, so that another call leaves its cases.
fn seed(group: &Group, call: &Call) -> u64 {
    let name = group.name.bytes().chain(call.name.bytes());
    name.fold(1, |seed: u64, byte| {
        seed.wrapping_mul(257).wrapping_add(byte.into())
    })
}

fn joined(lines: &[String]) -> String {
    lines.iter().map(|line| format!("{line}\n")).collect()
}

#[cfg(test)]
mod tests {
    use super::*;

    #[test]
    fn the_second_program_answers() {
        let file = |until, answer| {
            let rules = "# rules: field=256 w2=0 w4=0 w5=0 w12=0";
            format!("{rules}\n# a word\nstore a-1 {until} 2,1,1,1 xa7 x0000 > {answer}\n")
        };
        assert_eq!(answered(&file("-", "?")), Ok(file("-", "0 xa7a7")));
        assert_eq!(answered(&file("-", "0 xa7a6")), Ok(file("-", "0 xa7a7")));
        assert_eq!(answered(&file("W4", "?")), Ok(file("W4", "?")));
    }

    #[test]
    fn what_cannot_be_read_is_not_written() {
        for text in [
            "",
            "store a-1 - 2,1,1,1 xa7 x0000 > ?\n",
            "# rules: field=256\nstore a-1 - 2,1,1,1 xa7 > ?\n",
            "# rules: field=256\nfold a-1 - 2,1,1,1 > ?\n",
            "# rules: field=256\nlayout a-1 - 2,1,1,1\n",
        ] {
            assert!(answered(text).is_err(), "{text}");
        }
    }
}
