//! Repair cards: printed, tested and repaired by.

use crate::bench::{assert_readable, Bench};

const PLACE: &str = "4 3 8 3 --lost 4 --helpers 0,2,3";
const REPAIR: &str = "repair c --lost 4 --helpers 0,2,3";

#[test]
fn a_printed_card_is_right() {
    let bench = Bench::new();
    for group in 0..8 {
        let out = bench.done(&format!("card print {PLACE} --group {group} card"));
        assert_readable(&out);
        let heading = format!("card of group {group} for rack 1 of (4, 3, 8, 3)\n");
        assert!(out.starts_with(&heading), "{out}");
        let card = String::from_utf8(bench.read("card")).expect("a card is text");
        assert_eq!(card.lines().count(), 2, "{card}");
        let counts = card.lines().map(|line| line.split(' ').count());
        assert!(counts.into_iter().all(|count| count == 3), "{card}");
        let out = bench.done(&format!("card test {PLACE} --group {group} card"));
        assert!(out.contains("right: it gives the rack's sums"), "{out}");
        // The same for the other trays of the rack, not for another group.
        let other = PLACE.replace("--lost 4", "--lost 3");
        bench.done(&format!("card test {other} --group {group} card"));
        let next = (group + 1) % 8;
        bench.refused(15, &format!("card test {PLACE} --group {next} card"));
    }
}

#[test]
fn cards_are_read_as_they_are_written() {
    let bench = Bench::new();
    bench.done(&format!("card print {PLACE} --group 3 card"));
    let card = String::from_utf8(bench.read("card")).expect("a card is text");
    let test = |text: &str| {
        bench.write("other", text.as_bytes());
        bench
            .run(&format!("card test {PLACE} --group 3 other"))
            .status
    };
    assert_eq!(test(&card), 0);
    assert_eq!(test(&card.replace('\n', " ")), 0, "lines are for people");
    assert_eq!(test(&format!("{card}0")), 2);
    assert_eq!(test(""), 2);
    let numbers: Vec<&str> = card.split_whitespace().collect();
    for at in 0..6 {
        let with = |number: &str| {
            let mut other = numbers.clone();
            other[at] = number;
            other.join(" ")
        };
        let wrong = if numbers[at] == "1" { "2" } else { "1" };
        assert_eq!(test(&with(wrong)), 15);
        assert_eq!(test(&with("256")), 3);
        assert_eq!(test(&with("18446744073709551616")), 65);
        assert_eq!(test(&with("-1")), 65);
        assert_eq!(test(&with("x")), 65);
    }
}

#[test]
fn what_no_card_is_for() {
    let bench = Bench::new();
    let print = |place: &str| format!("card print {place} card");
    bench.refused(1, &print("4 3 8 4 --lost 4 --helpers 0,2,3 --group 0"));
    bench.refused(1, &print("6 3 5 4 1 --lost 4 --helpers 0,2,3,5 --group 0"));
    bench.refused(3, &print("4 3 8 3 --lost 12 --helpers 0,2,3 --group 0"));
    bench.refused(3, &print("4 3 8 3 --lost 4 --helpers 0,2,4 --group 0"));
    bench.refused(3, &print("4 3 8 3 --lost 4 --helpers 0,2,3 --group 8"));
    bench.refused(4, &print("4 3 8 3 --lost 4 --helpers 2,0,3 --group 0"));
    bench.refused(5, &print("4 3 8 3 --lost 4 --helpers 0,2 --group 0"));
    bench.refused(6, &print("4 3 8 3 --lost 4 --helpers 0,1,3 --group 0"));
    assert!(!bench.exists("card"));
    bench.fails(74, &format!("card test {PLACE} --group 0 card"));
}

/// Some groups by cards, the others by pieces.
#[test]
fn a_tray_is_repaired_by_cards() {
    let bench = Bench::with_cabinet();
    let before = bench.snapshot("c");
    for group in 0..8 {
        bench.done(&format!("card print {PLACE} --group {group} card-{group}"));
    }
    bench.remove("c/tray-04.img");
    let out = bench.done(&format!("{REPAIR} --card card-0"));
    assert!(out.contains("1 of 8:  3 crossed, 21 to come"), "{out}");
    bench.done(&format!("{REPAIR} --budget 2"));
    let message = bench.refused(15, &format!("{REPAIR} --card card-4"));
    assert!(message.contains("repair of tray 4"), "{message}");
    let out = bench.done(&format!("{REPAIR} --card card-3 --card card-4"));
    assert!(out.contains("5 of 8: 15 crossed,  9 to come"), "{out}");
    // The last group is the eighth: there is no card for one more.
    let cards = "--card card-5 --card card-6 --card card-7";
    bench.fails(3, &format!("{REPAIR} {cards} --card card-0"));
    bench.fails(64, &format!("{REPAIR} --card card-5 --budget 1"));
    let out = bench.done(&format!("{REPAIR} --first 5 {cards}"));
    assert!(out.contains("all trays together are sound"), "{out}");
    assert!(before == bench.snapshot("c"));
}

#[test]
fn cards_are_for_one_tray() {
    let bench = Bench::new();
    bench.write("data", &crate::bench::data(96));
    bench.done("store 4 3 6 3 --volume 7 data c");
    bench.done("card print 4 3 6 3 --lost 4 --helpers 0,2,3 --group 0 card");
    bench.fails(64, "repair c --lost 3,4 --helpers 0,2,3 --card card");
    bench.remove("c/tray-04.img");
    bench.done("repair c --lost 4 --helpers 0,2,3 --card card");
}

#[test]
fn in_the_field_of_257_too() {
    let bench = Bench::with_racks_of_four();
    let place = "5 4 15 4 --field 257 --lost 6 --helpers 0,2,3,4";
    let before = bench.snapshot("c");
    let mut line = "repair c --lost 6 --helpers 0,2,3,4".to_string();
    for group in 0..16 {
        let name = format!("card-{group}");
        bench.done(&format!("card print {place} --group {group} {name}"));
        line += &format!(" --card {name}");
    }
    bench.write("above", b"257 0 0 0 0 0 0 0\n");
    bench.refused(3, &format!("card test {place} --group 0 above"));
    bench.remove("c/tray-06.img");
    let out = bench.done(&line);
    assert_readable(&out);
    assert!(out.contains("all trays together are sound"), "{out}");
    assert!(before == bench.snapshot("c"));
}

/// Where a share may be wrong there are no cards.
#[test]
fn not_where_a_share_may_be_wrong() {
    let bench = Bench::with_a_stale_rack();
    bench.write("card", b"0\n");
    bench.refused(1, "repair c --lost 4 --helpers 0,2,3,5 --card card");
}
