//! The replay of the vector files.

use crate::calls::{groups, Call};
use crate::field::{Field, FIELDS};
use crate::inputs::Inputs;
use crate::run::Run;
use std::fs;
use std::io;
use std::path::{Path, PathBuf};

/// The requests that have landed. Each new one is named here.
pub const LANDED: &[&str] = &[
    "W1", "W2", "W4", "W5", "W6", "W7", "W8", "W10", "W11", "W12", "W13",
];

/// Cases replayed and left out.
#[derive(Debug, Default, PartialEq, Eq)]
pub struct Replayed {
    pub run: u64,
    pub skipped: u64,
}

/// Replays every vector file of a folder. A folder without any is a failure.
pub fn replay(run: &mut Run, folder: &Path) {
    let before = run.differing;
    let mut replayed = Replayed::default();
    match files(folder) {
        Ok(files) if !files.is_empty() => files
            .iter()
            .for_each(|file| replay_file(run, &mut replayed, file)),
        Ok(_) => run.require(false, || format!("no vector file in {}", folder.display())),
        Err(error) => run.require(false, || format!("{}: {error}", folder.display())),
    }
    let differing = run.differing - before;
    println!(
        "vectors: {} run, {} skipped, {differing} differing",
        replayed.run, replayed.skipped
    );
}

/// The vector files of a folder, by their names.
pub fn files(folder: &Path) -> io::Result<Vec<PathBuf>> {
    let entries = fs::read_dir(folder)?.collect::<io::Result<Vec<fs::DirEntry>>>()?;
    let mut files: Vec<PathBuf> = entries.iter().map(fs::DirEntry::path).collect();
    files.retain(|file| file.extension().is_some_and(|extension| extension == "txt"));
    files.sort();
    Ok(files)
}

fn replay_file(run: &mut Run, replayed: &mut Replayed, file: &Path) {
    match fs::read_to_string(file) {
        Ok(text) => replay_text(run, replayed, &file.display().to_string(), &text, LANDED),
        Err(error) => run.require(false, || format!("{}: {error}", file.display())),
    }
}

/// Replays the cases of a file, those that the landed requests leave as they
/// are. A file whose rules are not all in force yet is left out.
fn replay_text(run: &mut Run, replayed: &mut Replayed, name: &str, text: &str, landed: &[&str]) {
    let (rules, field) = match rules_of(text) {
        Ok(rules) => rules,
        Err(words) => return run.require(false, || format!("{name} {words}")),
    };
    let in_force = rules.split(' ').all(|rule| holds(rule, landed));
    for line in text.lines().filter(|line| is_case(line)) {
        if !in_force || superseded(line, landed) {
            replayed.skipped += 1;
            continue;
        }
        replayed.run += 1;
        if let Err(words) = replay_line(run, field, line) {
            run.require(false, || format!("{name}: {words} in: {line}"));
        }
    }
}

/// The rules that a file's first line names, and the field among them.
pub fn rules_of(text: &str) -> Result<(&str, Field), &'static str> {
    let first = text.lines().next().unwrap_or_default();
    let rules = first.strip_prefix("# rules: ").ok_or("names no rules")?;
    let named = |field: &Field| {
        let rule = format!("field={}", field.symbols());
        rules.split(' ').any(|word| word == rule)
    };
    let field = FIELDS.into_iter().find(named).ok_or("names no field")?;
    Ok((rules, field))
}

/// Whether a line of a file is a case.
pub fn is_case(line: &str) -> bool {
    !line.is_empty() && !line.starts_with('#')
}

/// Whether a rule of a file's first line is in force: the first field, the second
/// where it has landed, and a request that has landed or is not asked for.
fn holds(rule: &str, landed: &[&str]) -> bool {
    match rule.split_once('=') {
        Some(("field", "256")) => true,
        Some(("field", _)) => landed.contains(&"W10"),
        Some((_, "0")) => true,
        Some((request, "1")) => landed.contains(&request.to_uppercase().as_str()),
        _ => false,
    }
}

/// Whether a request that has landed changes the answer of a case.
pub fn superseded(line: &str, landed: &[&str]) -> bool {
    let until = line.split(' ').nth(2).unwrap_or("-");
    until.split(',').any(|request| landed.contains(&request))
}

fn replay_line(run: &mut Run, field: Field, line: &str) -> Result<(), String> {
    let (case, expected) = line.split_once(" > ").ok_or("no answer")?;
    let (call, inputs) = parse_case(field, case)?;
    run.replay(call, &inputs, expected);
    Ok(())
}

/// The call of a case, which stands before the answer, and its inputs.
pub fn parse_case(field: Field, case: &str) -> Result<(&'static Call, Inputs), String> {
    let words: Vec<&str> = case.split(' ').collect();
    let groups = groups().into_iter().filter(|group| group.field == field);
    let call = groups
        .flat_map(|group| group.calls)
        .find(|call| call.name == words[0])
        .ok_or("an unknown call")?;
    let inputs = Inputs::parse(field, call.shape, words.get(3..).ok_or("no inputs")?)?;
    Ok((call, inputs))
}

#[cfg(test)]
mod tests {
    use super::*;

    const RULES: &str = "# rules: field=256 w2=0 w4=0 w5=0 w12=0\n";

    /// Cases run, cases skipped, differences.
    fn outcome(text: &str, landed: &[&str]) -> (u64, u64, u64) {
        let (mut run, mut replayed) = (Run::default(), Replayed::default());
        replay_text(&mut run, &mut replayed, "a file", text, landed);
        (replayed.run, replayed.skipped, run.differing)
    }

    #[test]
    fn right_and_wrong_answers() {
        let file = |answer: &str| format!("{RULES}store a-1 - 2,1,1,1 xa7 x0000 > {answer}\n");
        assert_eq!(outcome(&file("0 xa7a7"), &[]), (1, 0, 0));
        // Both the library and the second program differ from a wrong vector.
        assert_eq!(outcome(&file("0 xa7a6"), &[]), (1, 0, 2));
        assert_eq!(outcome(&file("0 ~"), &[]), (1, 0, 2));
    }

    #[test]
    fn cases_changed_by_a_landed_request_are_skipped() {
        let file = format!("{RULES}layout a-1 W4,W12 2,1,1,1 > 0 1 1 1\n");
        assert_eq!(outcome(&file, &[]), (1, 0, 0));
        assert_eq!(outcome(&file, &["W2", "W5"]), (1, 0, 0));
        assert_eq!(outcome(&file, &["W12"]), (0, 1, 0));
    }

    #[test]
    fn files_of_requests_to_come_are_skipped() {
        let case = "margin a-1 - 2,1,1,1 x0102 > 0 0\n";
        let file = format!("{}{case}", RULES.replace("w2=0", "w2=1"));
        assert_eq!(outcome(&file, &[]), (0, 1, 0));
        let other_field = format!("{}{case}", RULES.replace("256", "257"));
        assert_eq!(outcome(&other_field, &[]), (0, 1, 0));
        assert_eq!(outcome(&other_field, &["W10"]), (1, 0, 0));
    }

    #[test]
    fn symbols_are_written_by_the_field() {
        let rules = RULES.replace("256", "257");
        let file = |words: &str| format!("{rules}store a-1 - 2,1,1,1 {words}\n");
        let right = file("w00a7 w01010000 > 0 w00a7005a");
        assert_eq!(outcome(&right, &["W10"]), (1, 0, 0));
        let wrong = file("w00a7 w01010000 > 0 w00a700a7");
        assert_eq!(outcome(&wrong, &["W10"]), (1, 0, 2));
        assert_eq!(outcome(&file("xa7 x0000 > 0 xa7a7"), &["W10"]), (1, 0, 1));
        let no_field = right.replace("257", "258");
        assert_eq!(outcome(&no_field, &["W10"]), (0, 0, 1));
    }

    #[test]
    fn what_cannot_be_read_fails() {
        assert_eq!(outcome("layout a-1 - 2,1,1,1 > 0 1 1 1\n", &[]).2, 1);
        for line in [
            "layout a-1 - 2,1,1,1",
            "layout a-1 - > 0",
            "fold a-1 - 2,1,1,1 > 0",
            "layout > 0",
        ] {
            assert_eq!(
                outcome(&format!("{RULES}{line}\n"), &[]),
                (1, 0, 1),
                "{line}"
            );
        }
    }
}
