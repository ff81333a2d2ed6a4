//! The sixteen-tray box.

use crate::bench::{assert_readable, Bench};

const DATA: &str = "1234567";
const WORD: &str = "10B9 51F8 E98C 6E7C";

#[test]
fn data_are_stored_and_come_back() {
    let bench = Bench::new();
    assert_eq!(
        bench.done(&format!("box store {DATA}")),
        format!("{WORD}\n")
    );
    assert_eq!(
        bench.done("box store 0100100"),
        "0000 1111 6666 7777\n",
        "x + x^4, by which the racks are sorted"
    );
    for values in [WORD, "..... .... 98C 6E7C", "1.B. 5.F. E.8. 6..."] {
        assert_eq!(
            bench.run(&format!("box data {values}")).out,
            format!("{DATA}\n")
        );
    }
    let erased = "--erase 0,2,4,6,8,10,12,14,15";
    assert_eq!(
        bench.ends(16, &format!("box data {WORD} {erased}")),
        format!("{DATA}\n")
    );
}

#[test]
fn lost_trays_are_recovered() {
    let bench = Bench::new();
    let out = bench.done("box recover 1... 51F8 E98C 6E7C");
    assert_readable(&out);
    let words = "  brought back: trays 1, 2, 3; all are sound\n";
    assert_eq!(out, format!("{WORD}\n{words}"));
    let out = bench.done(&format!("box recover {WORD}"));
    assert!(
        out.contains("no tray to bring back; all are sound"),
        "{out}"
    );
    // A value that is wrong at a tray that is named is not looked at.
    let out = bench.done("box recover 00B9 51F8 E98C 6E7C --erase 0");
    assert!(out.starts_with(WORD), "{out}");
}

#[test]
fn every_tray_is_repaired() {
    let bench = Bench::new();
    for tray in 0..16 {
        let mut values: Vec<char> = WORD.chars().filter(|mark| *mark != ' ').collect();
        values[tray] = '.';
        let values: String = values.into_iter().collect();
        let helpers = ["1,3", "0,2", "0,3", "1,2"][tray / 4];
        let out = bench.done(&format!("box repair {values} --helpers {helpers}"));
        assert_readable(&out);
        let first = &helpers[..1];
        assert!(
            out.starts_with(&format!("  rack {first} sends 3\n")),
            "{out}"
        );
        let words = format!("{WORD}\n  brought back: tray {tray}; 2 symbols crossed\n");
        assert!(out.ends_with(&words), "{out}");
    }
}

#[test]
fn refusals_have_their_numbers() {
    let bench = Bench::new();
    for (number, line) in [
        (2, "box store 123456"),
        (2, "box store 12345678"),
        (2, "box data 10B9 51F8 E98C 6E7"),
        (2, "box recover 10B9 51F8 E98C 6E7C 0"),
        (2, "box repair 10.9 51F8 E98C --helpers 1,3"),
        (3, "box recover 10B9 51F8 E98C 6E7C --erase 16"),
        (3, "box repair 10.9 51F8 E98C 6E7C --helpers 1,4"),
        (4, "box repair 10.9 51F8 E98C 6E7C --helpers 3,1"),
        (5, "box data .... .... ..8C 6E7C"),
        (5, "box recover .... .... ..8C 6E7C"),
        (5, "box repair 10.9 51F8 E98C 6E7C --helpers 1,2,3"),
        (5, "box repair 10.9 51F8 E98C 6E7C --helpers 1"),
        (6, "box repair 10.9 51F8 E98C 6E7C --helpers 0,1"),
        (8, "box data 10B9 51F8 E98C 6E7D"),
        (8, "box recover 1... 51F8 E98C 6E7D"),
        (8, "box repair 10.9 51F8 E98C 6E7D --helpers 1,3"),
    ] {
        bench.refused(number, line);
    }
}

#[test]
fn senseless_lines_are_usage_errors() {
    let bench = Bench::new();
    for line in [
        "box",
        "box wash",
        "box store 12345G7",
        "box store 12345.7",
        "box store 1234567 --erase 1",
        "box data 10B9 51F8 E98C 6E7x",
        "box data 10B9 51F8 E98C 6E7. --helpers 0,1",
        "box recover 10B9 --erase one",
        "box repair 10.9 51F8 E98C 6E7C",
        "box repair 10B9 51F8 E98C 6E7C --helpers 1,2",
        "box repair 1..9 51F8 E98C 6E7C --helpers 1,2",
        "box repair 10.9 51F8 E98C 6E7C --helpers 1,2 --erase 3",
    ] {
        let message = bench.fails(64, line);
        assert!(message.contains("see: cabinet help box"), "{message}");
    }
}
