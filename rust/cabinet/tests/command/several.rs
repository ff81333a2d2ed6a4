//! Repairs of several lost trays of one rack.

use crate::bench::{assert_readable, data, Bench, LABEL, SYMBOLS};

const LINE: &str = "repair c --lost 3,5 --helpers 0,2,3";

/// A cabinet (4, 3, 6, 3), volume 7, in the folder `c`: here v is 0, and a whole rack can be
/// repaired by shares.
fn cabinet() -> Bench {
    let bench = Bench::new();
    bench.write("data", &data(96));
    bench.done("store 4 3 6 3 --volume 7 data c");
    bench
}

fn image(tray: usize) -> String {
    format!("c/tray-{tray:02}.img")
}

#[test]
fn any_trays_of_a_rack_come_back() {
    let bench = cabinet();
    let before = bench.snapshot("c");
    for rack in 0..4 {
        let helpers = ["1,2,3", "0,2,3", "0,1,3", "0,1,2"][rack];
        for places in [&[0][..], &[2], &[0, 1], &[0, 2], &[1, 2], &[0, 1, 2]] {
            let trays: Vec<usize> = places.iter().map(|place| rack * 3 + place).collect();
            trays.iter().for_each(|tray| bench.remove(&image(*tray)));
            let lost: Vec<String> = trays.iter().map(usize::to_string).collect();
            let line = format!("repair c --lost {} --helpers {helpers}", lost.join(","));
            let out = bench.done(&line);
            let crossed = format!("{} crossed,  0 to come", 24 * trays.len());
            assert!(out.contains(&crossed), "{out}");
            assert!(out.contains("all trays together are sound"), "{out}");
            assert!(before == bench.snapshot("c"), "{line}");
        }
    }
}

#[test]
fn a_repair_of_several_can_be_cut_anywhere() {
    let bench = cabinet();
    let before = bench.snapshot("c");
    for cut in 0..8 {
        [3, 5].iter().for_each(|tray| bench.remove(&image(*tray)));
        let out = bench.done(&format!("{LINE} --budget {cut}"));
        let traffic = format!(
            "{cut} of 8: {:>2} crossed, {:>2} to come",
            6 * cut,
            48 - 6 * cut
        );
        assert!(out.contains(&traffic), "{out}");
        assert!(bench.exists("c/tray-03-05.spare"));
        assert!(!bench.exists(&image(3)) && !bench.exists(&image(5)));
        let out = bench.done(LINE);
        assert!(out.contains(&format!("group {cut} ")), "{out}");
        assert!(out.contains("trays 3, 5 are whole"), "{out}");
        assert!(before == bench.snapshot("c"), "cut at {cut}");
    }
}

/// The first of several shares is the one for a single tray.
#[test]
fn shares_of_several_come_from_files() {
    let bench = cabinet();
    let before = bench.snapshot("c");
    for rack in [0, 2, 3] {
        let share = |count: &str| {
            bench.done(&format!(
                "share c --host 1 --helper {rack} {count} share-{rack}"
            ));
            bench.read(&format!("share-{rack}"))
        };
        let (single, one, two) = (share(""), share("--count 1"), share("--count 2"));
        assert_eq!(single, one);
        assert_eq!((one.len(), two.len()), (8, 16));
        assert_eq!(two[..8], one[..]);
    }
    [3, 5].iter().for_each(|tray| bench.remove(&image(*tray)));
    let shares = "--share share-0 --share share-2 --share share-3";
    let message = bench.refused(2, &format!("repair c --lost 5 --helpers 0,2,3 {shares}"));
    assert!(message.contains("16 bytes, a share has 8"), "{message}");
    bench.done(&format!("{LINE} {shares}"));
    assert!(before == bench.snapshot("c"));
}

#[test]
fn a_spare_of_several_belongs_to_them_alone() {
    let bench = cabinet();
    let before = bench.snapshot("c");
    let fifth = bench.read(&image(5));
    [3, 5].iter().for_each(|tray| bench.remove(&image(*tray)));
    bench.done(&format!("{LINE} --budget 3 --spare work"));
    bench.write(&image(5), &fifth);
    for lost in ["3", "3,4", "3,4,5"] {
        let line = format!("repair c --lost {lost} --helpers 0,2,3 --spare work");
        assert!(bench.fails(65, &line).contains("another repair"));
    }
    bench.remove(&image(5));
    bench.done(&format!("{LINE} --spare work"));
    assert!(before == bench.snapshot("c"));
}

/// Reading while repairing is for one lost tray alone.
#[test]
fn a_spare_of_several_is_not_read() {
    let bench = cabinet();
    [3, 5].iter().for_each(|tray| bench.remove(&image(*tray)));
    bench.done(&format!("{LINE} --budget 7"));
    for tray in [3, 4, 5] {
        let line = format!("read c --tray {tray} --lost 3 --layers 0..1");
        bench.fails(65, &format!("{line} --spare c/tray-03-05.spare"));
    }
    bench.refused(13, "read c --tray 3 --lost 3 --layers 0..1");
    bench.done("read c --tray 4 --layers 0..1");
}

/// Either all files are written or none.
#[test]
fn trays_that_do_not_fit_are_not_written() {
    let bench = cabinet();
    [3, 5].iter().for_each(|tray| bench.remove(&image(*tray)));
    [8, 9, 11]
        .iter()
        .for_each(|tray| bench.forge(&image(*tray), SYMBOLS + 9));
    let message = bench.fails(65, LINE);
    assert!(message.contains("trays 3, 5 and the others"), "{message}");
    assert!(!bench.exists(&image(3)) && !bench.exists(&image(5)));
    assert!(bench.exists("c/tray-03-05.spare"));
}

/// The lost trays' own images are not looked at, those beside them must be live.
#[test]
fn demonstration_trays_beside_the_lost_ones() {
    let bench = cabinet();
    let before = bench.snapshot("c");
    [3, 5]
        .iter()
        .for_each(|tray| bench.poke(&image(*tray), LABEL + 3, 2));
    bench.poke(&image(4), LABEL + 3, 2);
    assert!(bench.refused(10, LINE).contains("tray-04.img"));
    bench.done("repair c --lost 3,4,5 --helpers 0,2,3");
    assert!(before == bench.snapshot("c"));
}

#[test]
fn a_large_repair_of_several_is_readable() {
    let bench = Bench::new();
    bench.write("data", &data(200_000));
    bench.done("store 12 5 50 11 --volume 7 data c");
    let before = bench.snapshot("c");
    (0..5).for_each(|tray| bench.remove(&image(tray)));
    let out = bench.done("repair c --lost 0,1,2,3,4 --helpers 1,2,3,4,5,6,7,8,9,10,11");
    assert_readable(&out);
    assert!(
        out.contains("2048 of 2048: 112640 crossed,      0 to come"),
        "{out}"
    );
    assert!(before == bench.snapshot("c"));
}
