//! The C header names a refusal, and says its words, as the crate does, and declares what it links.

use gesarumbo::Refusal;

const HEADER: &str = include_str!("../../../c/gesarumbo.h");
/// What the crate links.
const LINKED: [&str; 2] = [
    include_str!("../src/ffi.rs"),
    include_str!("../src/ffi/batch.rs"),
];

/// What stands in the header between two texts.
fn between(begin: &str, end: &str) -> &'static str {
    let (_, rest) = HEADER.split_once(begin).expect("it begins");
    let (found, _) = rest.split_once(end).expect("it ends");
    found
}

/// The strings of the header's table of words, those side by side joined as C joins them.
fn words() -> Vec<String> {
    let entries = between("words[] = {", "};").split("\",\n");
    let text = |entry: &str| entry.split('"').skip(1).step_by(2).collect();
    entries
        .filter(|entry| entry.contains('"'))
        .map(text)
        .collect()
}

/// The header's names of the refusals with their numbers, as the lines have them.
fn names() -> Vec<(&'static str, u32)> {
    let lines = between("enum gesarumbo_refusal {", "};").split(',');
    let pair = |line: &'static str| {
        let (name, number) = line.split_once(" = ").expect("it has a number");
        (
            name.trim(),
            number.trim().parse().expect("the number is plain"),
        )
    };
    lines.map(pair).collect()
}

#[test]
fn every_ground_has_the_same_words_in_c() {
    let words = words();
    assert_eq!(words[0], "done");
    for (number, words) in words.iter().enumerate().skip(1) {
        let ground = Refusal::from_number(number as u32).expect("there is such a ground");
        assert_eq!(*words, ground.to_string());
    }
    assert_eq!(Refusal::from_number(words.len() as u32), None);
}

#[test]
fn every_ground_has_the_same_name_in_c() {
    let names = names();
    assert_eq!(names[0], ("GESARUMBO_DONE", 0));
    assert_eq!(names.len(), words().len());
    for (place, &(name, number)) in names.iter().enumerate().skip(1) {
        assert_eq!(place as u32, number);
        let ground = Refusal::from_number(number).expect("there is such a ground");
        let plain = name
            .strip_prefix("GESARUMBO_REFUSED_")
            .expect("it says so")
            .replace('_', "");
        assert_eq!(plain, format!("{ground:?}").to_uppercase());
    }
}

#[test]
fn header_and_crate_have_one_version() {
    let version = between("#define GESARUMBO_VERSION \"", "\"\n");
    assert_eq!(version, env!("CARGO_PKG_VERSION"));
    let number = |part: &str| between(&format!("#define GESARUMBO_VERSION_{part} "), "\n");
    let numbers = ["MAJOR", "MINOR", "PATCH"].map(number);
    assert_eq!(version, numbers.join("."));
}

#[test]
fn every_call_of_both_fields_is_declared() {
    let mut calls = 0;
    for text in LINKED {
        for linked in text.split("concat!($prefix, \"").skip(1) {
            let (name, _) = linked.split_once('"').expect("a name ends");
            for field in ["gesarumbo", "gesarumbo257"] {
                let declared = HEADER.contains(&format!(" {field}{name}("));
                assert!(declared, "{field}{name}");
            }
            calls += 1;
        }
    }
    assert!(calls > 20);
}
