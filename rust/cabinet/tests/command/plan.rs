//! The plan of a layout: numbers, failing conditions, and a picture that is well formed.

use crate::bench::{assert_readable, Bench};
use crate::xml::assert_well_formed;

/// A row of the table, without its spaces.
fn row(text: &str, name: &str) -> Vec<String> {
    let is_row = |line: &&str| line.split_whitespace().next() == Some(name);
    let line = text
        .lines()
        .find(is_row)
        .unwrap_or_else(|| panic!("no row {name} in\n{text}"));
    line.split_whitespace().map(str::to_string).collect()
}

#[test]
fn the_table_has_the_numbers() {
    let text = Bench::new().done("plan 4 3 8 3");
    assert_readable(&text);
    let names = "B u n k r K v R d s L groups symbols";
    let values = "4 3 12 8 4 2 2 2 3 2 16 8 8";
    for (name, value) in names.split(' ').zip(values.split(' ')) {
        let row = row(&text, name);
        assert_eq!(row.last().map(String::as_str), Some(value), "{name}");
    }
}

#[test]
fn the_plan_says_what_is_survived_and_saved() {
    let text = Bench::new().done("plan 4 3 8 3");
    for words in [
        "any 4 lost trays of 12; 5 are too many",
        "any 1 whole rack of 4, and any 1 tray more",
        "24 = 3 shares of 8 symbols",
        "128 = 8 trays of 16 symbols",
        "81.2 % saved: 24 symbols in place of 128, or 18.8 %",
        "96 of the 128 would come from other racks; shares are 25.0 % of these",
    ] {
        assert!(text.contains(words), "{words} is missing in\n{text}");
    }
}

#[test]
fn the_largest_and_the_smallest_layout() {
    let bench = Bench::new();
    let large = bench.done("plan 10 3 24 9");
    assert_eq!(row(&large, "L").last().map(String::as_str), Some("1,024"));
    assert!(
        large.contains("4,608 symbols in place of 24,576"),
        "{large}"
    );
    let small = bench.done("plan 2 1 1 1");
    assert!(small.contains("any 1 whole rack of 2"), "{small}");
    assert!(
        small.contains("1 symbol in place of 1, or 100.0 %"),
        "{small}"
    );
}

#[test]
fn failing_conditions_are_named() {
    let bench = Bench::new();
    let cases = [
        ("4 4 8 3", "u = 1, 3, 5, 15 or 17"),
        ("21 3 27 9", "n <= 60"),
        ("4 3 2 3", "u <= k"),
        ("4 3 10 3", "u <= n - k"),
        ("4 3 8 1", "K <= d"),
        ("4 3 8 4", "d <= B - 1"),
        ("13 3 33 12", "L <= 4,096"),
        ("8 5 24 7", "L <= 4,096"),
    ];
    for (layout, rule) in cases {
        let line = format!("plan {layout} --svg picture.svg");
        let message = bench.refused(1, &line);
        assert!(message.contains(&format!("needed is {rule}")), "{message}");
        let table = bench.run(&line).out;
        assert_readable(&table);
        let failing: Vec<&str> = table
            .lines()
            .filter(|line| line.contains("fails"))
            .collect();
        assert_eq!(failing.len(), 1, "{table}");
        assert!(failing[0].contains(rule), "{table}");
    }
    assert!(bench.run("plan 13 3 33 12").err.contains("L = 2^13 = 8192"));
}

#[test]
fn failing_conditions_of_the_field_of_257_are_named() {
    let bench = Bench::new();
    let cases = [
        ("4 3 8 3", "u = 1, 2, 4, 8 or 16"),
        ("2 32 32 1", "u = 1, 2, 4, 8 or 16"),
        ("31 2 32 16", "n <= 60"),
        ("5 4 17 4", "u <= n - k"),
        ("13 4 44 12", "L <= 4,096"),
    ];
    for (layout, rule) in cases {
        let message = bench.refused(1, &format!("plan {layout} --field 257"));
        assert!(message.contains("modulo 257"), "{message}");
        assert!(message.contains(&format!("needed is {rule}")), "{message}");
    }
    bench.refused(1, "plan 5 4 15 4");
    bench.refused(1, "plan 5 4 15 4 --field 256");
    let text = bench.done("plan 5 4 15 4 --field 257");
    assert_readable(&text);
    for (name, value) in [("n", "20"), ("v", "3"), ("s", "2"), ("L", "32")] {
        let row = row(&text, name);
        assert_eq!(row.last().map(String::as_str), Some(value), "{name}");
    }
    for words in [
        "Layout (5, 4, 15, 4) modulo 257",
        "480 bytes of data in a codeword of 640 symbols of two bytes",
        "37.2 % of the bytes on the trays are data, in long files",
        "64 = 4 shares of 16 symbols",
    ] {
        assert!(text.contains(words), "{words} is missing in\n{text}");
    }
}

#[test]
fn a_layout_with_a_share_that_may_be_wrong() {
    let bench = Bench::new();
    let text = bench.done("plan 5 3 4 4 1");
    assert_readable(&text);
    for (name, value) in [("E", "1"), ("d", "4"), ("s", "2"), ("L", "32")] {
        let row = row(&text, name);
        assert_eq!(row.last().map(String::as_str), Some(value), "{name}");
    }
    for words in [
        "Layout (5, 3, 4, 4, 1)",
        "d - K - 1",
        "64 = 4 shares of 16 symbols",
        "50.0 % saved: 64 symbols in place of 128, or 50.0 %",
    ] {
        assert!(text.contains(words), "{words} is missing in\n{text}");
    }
    assert_eq!(bench.done("plan 4 3 8 3 0"), bench.done("plan 4 3 8 3"));
    let more = bench.done("plan 4 1 1 3 1");
    let words = "200.0 % more: 3 symbols in place of 1, or 300.0 %";
    assert!(more.contains(words), "{more}");
    for (layout, rule) in [
        ("5 3 4 2 1", "K + 2 <= d"),
        ("5 3 4 4 2", "E = 0 or 1"),
        ("5 3 4 4 4294967295", "E = 0 or 1"),
        ("13 1 9 12 1", "L <= 4,096"),
        ("5 3 4 4 1 --field 257", "u = 1, 2, 4, 8 or 16"),
    ] {
        let message = bench.refused(1, &format!("plan {layout}"));
        assert!(message.contains(&format!("needed is {rule}")), "{message}");
    }
}

#[test]
fn any_five_numbers_get_an_answer() {
    let bench = Bench::new();
    for layout in [
        "0 0 0 0",
        "1 1 1 1",
        "2 0 0 1",
        "2 0 0 1 1",
        "4294967295 4294967295 4294967295 4294967295",
        "4294967295 4294967295 4294967295 4294967295 4294967295",
    ] {
        bench.refused(1, &format!("plan {layout}"));
        bench.refused(1, &format!("plan {layout} --field 257"));
    }
}

#[test]
fn pictures_are_well_formed_and_whole() {
    let bench = Bench::new();
    for (layout, trays, helpers) in [
        ("4 3 8 3", 12, 3),
        ("2 1 1 1", 2, 1),
        ("48 1 40 40", 48, 40),
        ("16 3 24 8", 48, 8),
        ("2 17 17 1", 34, 1),
        ("5 3 4 3", 15, 3),
        ("5 4 15 4 --field 257", 20, 4),
        ("3 16 20 2 --field 257", 48, 2),
        ("5 3 4 4 1", 15, 4),
        ("4 1 1 3 1", 4, 3),
        ("6 4 7 4 1 --field 257", 24, 4),
    ] {
        bench.done(&format!("plan {layout} --svg picture.svg"));
        let picture = String::from_utf8(bench.read("picture.svg")).expect("a picture is text");
        assert_well_formed(&picture);
        let count = |class: &str| picture.matches(class).count();
        let drawn =
            count("class=\"on-data") + count("class=\"on-parity") + count("class=\"on-lost");
        assert_eq!(drawn, trays, "{layout}: every tray has its number");
        assert_eq!(
            count("class=\"on-share"),
            helpers,
            "{layout}: every helper has a share"
        );
        assert_eq!(count("class=\"on-lost"), 1, "{layout}: one tray is lost");
    }
}

#[test]
fn a_picture_never_replaces_what_is_no_file() {
    let bench = Bench::new();
    bench.fails(74, "plan 4 3 8 3 --svg .");
    bench.fails(74, "plan 4 3 8 3 --svg none/picture.svg");
    #[cfg(unix)]
    {
        std::os::unix::fs::symlink("elsewhere", bench.path("link")).expect("a link can be made");
        bench.fails(74, "plan 4 3 8 3 --svg link");
        assert!(!bench.exists("elsewhere"));
    }
}
