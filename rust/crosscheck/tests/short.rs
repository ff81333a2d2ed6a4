//! The whole comparison in its short form.

use crosscheck::calls::{calls, groups, sixteen, Call, Looks};
use crosscheck::crosscheck::{Crosscheck, Effort};
use crosscheck::field::{Field, FIELDS};
use crosscheck::inputs::{Inputs, Value};
use crosscheck::options::Options;
use crosscheck::run::Run;
use crosscheck::{vectors, writing};

#[test]
fn nothing_differs() {
    let mut crosscheck = Crosscheck::new(2);
    crosscheck.bounded(&Options::default().vectors, Effort::Short);
    assert!(crosscheck.report());
    assert!(crosscheck.run.compared > 10_000 && crosscheck.run.claims > 1_000);
}

#[test]
fn the_same_seed_gives_the_same_cases() {
    let table = |seed| {
        let mut crosscheck = Crosscheck::new(seed);
        crosscheck.long(100);
        crosscheck.run.table()
    };
    assert_eq!(table(5), table(5));
    assert_ne!(table(5), table(6));
}

fn named(field: Field, name: &str) -> &'static Call {
    let mut calls = calls(field).into_iter();
    calls.find(|call| call.name == name).unwrap()
}

/// The same inputs over the other field are another case.
#[test]
fn a_call_goes_to_its_field() {
    let answer = |field| {
        let values = vec![Value::Layout([2, 1, 1, 1, 0]), Value::Symbols(vec![7, 250])];
        let inputs = Inputs { field, values };
        (named(field, "test").library)(&inputs).to_string()
    };
    assert_eq!(FIELDS.map(answer), ["0 2 0 0", "0 1 0 0"]);
}

/// Grounds that were never met are differences: in a run of a call of a field and
/// one of the box nearly all.
#[test]
fn grounds_left_untried_are_seen() {
    let missing = |run: &mut Run| {
        let before = run.differing;
        run.require_grounds();
        run.differing - before
    };
    let mut run = Run::default();
    let all = missing(&mut run);
    let inputs = Inputs {
        field: Field::Of257,
        values: vec![Value::Layout([2, 1, 1, 1, 0])],
    };
    run.compare(named(Field::Of257, "layout"), &inputs);
    assert_eq!(missing(&mut run), all - 1);
    let inputs = sixteen::inputs([7, 16].map(|length| Value::Bytes(vec![9; length])).to_vec());
    run.compare(&sixteen::store::CALL, &inputs);
    assert_eq!(missing(&mut run), all - 2);
}

/// The calls of the box and the checksum are counted once, beside those of the fields.
#[test]
fn each_call_is_of_one_group() {
    let names = groups().map(|group| group.calls.iter().map(|call| call.name).collect());
    let [of_256, of_257, of_box, checksum]: [Vec<&str>; 4] = names;
    assert_eq!([of_256.len(), of_257.len(), of_box.len()], [28, 28, 5]);
    assert_eq!(checksum, ["checksum"]);
    let shared = |name: &&str| of_256.contains(name) || of_257.contains(name);
    assert!(!of_box.iter().chain(&checksum).any(shared));
}

/// A comparison that could not fail would be worth nothing.
#[test]
fn a_wrong_answer_is_seen() {
    for field in FIELDS {
        let margin = named(field, "margin");
        let crossed = Call {
            library: named(field, "layout").library,
            looks: Looks::AtNone,
            ..*margin
        };
        let inputs = Inputs {
            field,
            values: vec![Value::Layout([2, 1, 1, 1, 0]), Value::Bytes(vec![1, 1])],
        };
        let mut run = Run::default();
        run.compare(margin, &inputs);
        assert_eq!(run.differing, 0);
        run.compare(&crossed, &inputs);
        assert_eq!((run.compared, run.differing), (2, 1));
        run.claim(false, || "a claim that does not hold".to_string());
        assert_eq!((run.claims, run.differing), (1, 2));
    }
}

#[test]
fn a_folder_without_vectors_fails() {
    let mut crosscheck = Crosscheck::new(3);
    let folder = std::path::Path::new(env!("CARGO_MANIFEST_DIR")).join("src");
    vectors::replay(&mut crosscheck.run, &folder);
    vectors::replay(&mut crosscheck.run, &folder.join("absent"));
    assert_eq!(crosscheck.run.differing, 2);
}

/// Every vector file but those from outside is what the second program writes today.
#[test]
fn the_vectors_are_what_is_written() {
    let folder = Options::default().vectors;
    let written = writing::texts(&folder).unwrap();
    let all = vectors::files(&folder).unwrap();
    assert_eq!(all.len(), written.len() + writing::OUTSIDE.len());
    for (name, text) in written {
        let held = std::fs::read_to_string(folder.join(&name)).unwrap();
        assert!(held == text, "{name}");
    }
}
