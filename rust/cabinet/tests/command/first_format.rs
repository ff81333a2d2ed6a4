//! A cabinet of the first format, kept as it was written when there was no other: an image of
//! document 01 for each stripe, no label and no checksum.

use crate::bench::{data, Bench};

fn image(tray: usize) -> String {
    format!("first/tray-{tray:02}.img")
}

#[test]
fn it_is_read_as_ever() {
    let bench = Bench::with_first_format();
    let description = b"layout 4 3 8 3\nvolume 7\nstripes 3\nlength 300\n";
    assert_eq!(bench.read("first/cabinet.txt"), description);
    assert_eq!(bench.read(&image(5)).len(), 3 * 40);
    let out = bench.done("test first");
    assert!(
        out.contains("sound: each of 48 layers meets all 4 checks"),
        "{out}"
    );
    bench.done("scrub first");
    bench.done("get first back --replace");
    assert_eq!(bench.read("back"), data(300));
    let out = bench.done("inspect first/tray-05.img");
    assert!(
        out.contains("handed out as live tray 5, 3 stripes"),
        "{out}"
    );
    bench.done("read first --tray 5 --layers 0..16 --stripe 2 --out part");
    assert_eq!(bench.read("part"), bench.read(&image(5))[104..]);
}

#[test]
fn its_trays_come_back() {
    let bench = Bench::with_first_format();
    let before = bench.snapshot("first");
    bench.remove(&image(4));
    bench.done("repair first --lost 4 --helpers 0,2,3 --budget 13");
    bench.done("repair first --lost 4 --helpers 0,2,3");
    assert!(before == bench.snapshot("first"));
    (0..3).for_each(|tray| bench.remove(&image(tray)));
    bench.done("recover first");
    assert!(before == bench.snapshot("first"));
}

/// One wrong symbol a stripe is found and named by the code alone.
#[test]
fn its_wrong_trays_are_named() {
    let bench = Bench::with_first_format();
    let before = bench.snapshot("first");
    for (tray, stripe) in [(0, 0), (7, 1), (11, 2)] {
        bench.flip(&image(tray), stripe * 40 + 24 + 5);
    }
    let out = bench.ends(17, "get first back --replace");
    assert!(
        out.contains("tray 7 holds wrong symbols in stripe 1"),
        "{out}"
    );
    assert_eq!(bench.read("back"), data(300));
    bench.ends(17, "recover first");
    assert!(before == bench.snapshot("first"));
}

/// It is told what it is by settings too, and is replaced by one of the second format.
#[test]
fn it_is_replaced_by_the_second_format() {
    let bench = Bench::with_first_format();
    bench.remove("first/cabinet.txt");
    bench.fails(64, "test first");
    bench.done("test first --layout 4,3,8,3 --volume 7 --stripes 3");
    bench.done("get first back --layout 4,3,8,3 --volume 7 --stripes 3 --length 300");
    assert_eq!(bench.read("back"), data(300));
    bench.done("store 4 3 8 3 --volume 7 --replace back first");
    bench.done("get first again");
    assert_eq!(bench.read("again"), data(300));
    assert_eq!(bench.read(&image(5)).len(), 592);
}
