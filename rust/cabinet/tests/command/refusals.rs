//! Every refusal as an exit status, in the library's order, with nothing changed.

use crate::bench::{data, Bench, LABEL, SYMBOLS};

#[test]
fn layout_not_admissible() {
    let bench = Bench::with_cabinet();
    bench.refused(1, "plan 4 4 8 3");
    bench.refused(1, "store 4 4 8 3 --volume 7 data d");
    bench.refused(1, "test c --layout 4,4,8,3");
    bench.refused(1, "recover c --layout 13,3,33,12");
    bench.refused(1, "margin c --layout 4,3,8,4");
}

#[test]
fn wrong_length() {
    let bench = Bench::with_cabinet();
    bench.write("short", &data(127));
    bench.write("long", &data(129));
    bench.refused(2, "store 4 3 8 3 --volume 7 --exact short d");
    let message = bench.refused(2, "store 4 3 8 3 --volume 7 --exact long d");
    assert!(
        message.contains("long: 129 bytes, a stripe takes 128"),
        "{message}"
    );
    bench.done("store 4 3 8 3 --volume 7 --exact data d");
    let line = "repair c --lost 4 --helpers 0,2,3 --share s7 --share s8 --share s9";
    for length in [7, 8, 9] {
        bench.write(&format!("s{length}"), &data(length));
    }
    let message = bench.refused(2, line);
    assert!(message.contains("s7: 7 bytes, a share has 8"), "{message}");
    bench.refused(2, &line.replace("s7", "s8"));
}

#[test]
fn number_outside_the_layout() {
    let bench = Bench::with_cabinet();
    bench.refused(3, "share c --host 4 --helper 1 out");
    bench.refused(3, "share c --host 1 --helper 4294967295 out");
    bench.refused(3, "share c --host 9 --helper 9 out");
    bench.refused(3, "repair c --lost 12 --helpers 0,2,3");
    bench.refused(3, "repair c --lost 4 --helpers 2,0,4");
    bench.refused(3, "recover c --erase 12");
}

#[test]
fn list_not_rising() {
    let bench = Bench::with_cabinet();
    bench.refused(4, "repair c --lost 4 --helpers 0,3,2");
    bench.refused(4, "repair c --lost 4 --helpers 0,2,2");
    bench.refused(4, "repair c --lost 4 --helpers 2,0");
}

#[test]
fn too_many_erased_or_wrong_count_of_helpers() {
    let bench = Bench::with_cabinet();
    bench.refused(5, "repair c --lost 4 --helpers 0,2");
    bench.refused(5, "repair c --lost 4 --helpers 0,1,2,3");
    bench.refused(5, "repair c --lost 4 --helpers=");
    bench.refused(5, "recover c --erase 0,1,2,3,4");
    for tray in ["00", "03", "06", "09", "11"] {
        bench.remove(&format!("c/tray-{tray}.img"));
    }
    bench.refused(5, "recover c");
}

/// In (4, 3, 8, 3), v is 2: one tray of a rack can be repaired by shares, and no more.
#[test]
fn count_of_lost_trays() {
    let bench = Bench::with_cabinet();
    bench.refused(12, "repair c --lost 3,4 --helpers 0,2,3");
    bench.refused(12, "repair c --lost 3,4,5 --helpers 0,2,3");
    bench.refused(12, "repair c --lost= --helpers 0,2,3");
    bench.refused(12, "repair c --lost 3,4 --helpers 0,1,2 --first 9");
    for count in ["0", "2", "4", "4294967295"] {
        bench.refused(
            12,
            &format!("share c --host 1 --helper 0 --count {count} out"),
        );
        bench.refused(
            12,
            &format!("share c --host 1 --helper 1 --count {count} out"),
        );
        bench.refused(
            3,
            &format!("share c --host 1 --helper 4 --count {count} out"),
        );
    }
    bench.refused(3, "repair c --lost 3,6 --helpers 0,2");
    bench.refused(3, "repair c --lost 5,6 --helpers 0,2,3");
    bench.refused(3, "repair c --lost 9,12 --helpers 0,1,2");
    bench.refused(4, "repair c --lost 4,3 --helpers 0,2");
    bench.refused(4, "repair c --lost 4,4 --helpers 0,2,3");
    bench.refused(5, "repair c --lost 3,4 --helpers 0,2");
}

#[test]
fn host_is_a_helper() {
    let bench = Bench::with_cabinet();
    bench.refused(6, "share c --host 1 --helper 1 out");
    bench.refused(6, "repair c --lost 4 --helpers 0,1,2");
    bench.refused(6, "repair c --lost 4 --helpers 0,1,2 --first 9");
}

#[test]
fn first_group_too_large() {
    let bench = Bench::with_cabinet();
    bench.refused(7, "repair c --lost 4 --helpers 0,2,3 --first 9");
    bench.refused(
        7,
        "repair c --lost 4 --helpers 0,2,3 --first 18446744073709551615 --budget 0",
    );
}

#[test]
fn survivors_of_no_codeword() {
    let bench = Bench::with_cabinet();
    for tray in ["02", "05"] {
        bench.forge(&format!("c/tray-{tray}.img"), SYMBOLS);
    }
    bench.refused(8, "recover c");
    bench.remove("c/tray-07.img");
    bench.refused(8, "get c out");
    assert!(!bench.exists("out"));
}

#[test]
fn image_malformed() {
    let bench = Bench::with_cabinet();
    bench.poke("c/tray-02.img", LABEL + 2, 7);
    bench.refused(9, "inspect c/tray-02.img");
    bench.refused(9, "share c --host 1 --helper 0 out");
    bench.refused(9, "repair c --lost 1 --helpers 1,2,3");
    bench.refused(9, "read c --tray 2 --layers 0..1");
}

/// Also where its volume is another one: what it is comes before whose it is.
#[test]
fn image_marked_demonstration() {
    let bench = Bench::with_cabinet();
    bench.poke("c/tray-02.img", LABEL + 3, 2);
    bench.refused(10, "inspect c/tray-02.img");
    bench.refused(10, "inspect c/tray-02.img --volume 8");
    bench.refused(10, "share c --host 1 --helper 0 out");
    bench.refused(10, "repair c --lost 1 --helpers 1,2,3");
    bench.refused(10, "read c --tray 2 --layers 0..1");
}

#[test]
fn image_of_another_layout_or_volume() {
    let bench = Bench::with_cabinet();
    bench.refused(11, "inspect c/tray-02.img --volume 8");
    bench.refused(11, "share c --volume 8 --host 1 --helper 0 out");
    bench.refused(11, "read c --volume 8 --tray 2 --layers 0..1");
}

#[test]
fn layer_not_yet_repaired() {
    let bench = Bench::with_cabinet();
    bench.refused(13, "read c --tray 4 --lost 4 --layers 0..1");
    bench.done("repair c --lost 4 --helpers 0,2,3 --budget 1");
    bench.done("read c --tray 4 --lost 4 --layers 0..1");
    bench.refused(13, "read c --tray 4 --lost 4 --layers 0..2");
    bench.refused(3, "read c --tray 4 --lost 4 --layers 0..17");
}
