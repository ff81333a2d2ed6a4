//! Help, version and command lines that make no sense.

use crate::bench::{assert_readable, Bench};

const COMMANDS: [&str; 20] = [
    "demo",
    "status",
    "fix",
    "replace",
    "choose",
    "plan",
    "store",
    "get",
    "test",
    "scrub",
    "recover",
    "share",
    "repair",
    "card",
    "read",
    "margin",
    "inspect",
    "box",
    "manual",
    "completion",
];

#[test]
fn general_help_lists_commands_and_statuses() {
    let bench = Bench::new();
    let help = bench.done("--help");
    assert_readable(&help);
    assert_eq!(help, bench.done("help"));
    assert_eq!(help, bench.done("-h"));
    for command in COMMANDS {
        assert!(
            help.contains(&format!("\n  {command} ")),
            "{command} is missing"
        );
    }
    for status in [
        "   0  ", "   1  ", "  11  ", "  12  ", "  13  ", "  14  ", "  64  ", "  65  ", "  70  ",
        "  15  ", "  74  ",
    ] {
        assert!(
            help.contains(&format!("\n{status}")),
            "status {status} is missing"
        );
    }
}

#[test]
fn every_command_has_help() {
    let bench = Bench::new();
    for command in COMMANDS {
        let help = bench.done(&format!("help {command}"));
        assert_readable(&help);
        assert!(help.contains(&format!("\ncabinet {command}")), "{help}");
        assert!(help.contains("Exit status"), "{help}");
        assert_eq!(help, bench.done(&format!("{command} --help")));
        assert_eq!(help, bench.done(&format!("{command} some words -h")));
    }
}

#[test]
fn version() {
    let bench = Bench::new();
    let version = format!("cabinet {}\n", env!("CARGO_PKG_VERSION"));
    assert_eq!(bench.done("--version"), version);
}

#[test]
fn senseless_lines_are_usage_errors() {
    let bench = Bench::with_cabinet();
    let lines = [
        "",
        "wash",
        "help wash",
        "plan",
        "plan 4 3 8",
        "plan 4 3 8 3 0 9",
        "plan 4 3 8 3 one",
        "plan 4 3 8 x",
        "plan 4 3 8 -3",
        "plan 4 3 8 4294967296",
        "plan 4 3 8 3 --svg",
        "plan 4 3 8 3 --png p",
        "plan 4 3 8 3 --field",
        "plan 4 3 8 3 --field 258",
        "plan 4 3 8 3 --field bytes",
        "demo c",
        "demo --keep a --keep b",
        "store 4 3 8 3 data d",
        "store 4 3 8 3 --volume many data d",
        "store 4 3 8 3 0 0 --volume 7 data d",
        "store 4 3 8 3 --volume 7 --exact=yes data d",
        "store 4 3 8 3 --volume 7 --field 0 data d",
        "test",
        "test c --layout 4,3,8",
        "test c --layout 4,3,8,3,0,0",
        "test c --field 255",
        "scrub",
        "scrub c --budget some",
        "scrub c --reset now",
        "scrub c --map=all",
        "scrub c --svg",
        "share c --host 1 out",
        "share c --host 1 --helper 0 --count two out",
        "status",
        "status c d",
        "status c --html",
        "fix",
        "fix c 4",
        "replace c",
        "replace c four",
        "replace c 4 5",
        "repair c",
        "repair c --lost 4 --share c/tray-00.img",
        "repair c --lost 4 --helpers 0,two,3",
        "repair c --lost 3,four --helpers 0,2,3",
        "repair c --lost 4 --helpers 0,2,3 --share c/tray-00.img",
        "repair c --lost 4 --helpers 0,2,3 --card",
        "repair c --lost 4 --helpers 0,2,3 --card k --budget 1",
        "card",
        "card wash",
        "card print 4 3 8 3 --lost 4 --helpers 0,2,3 out",
        "card print 4 3 8 3 --helpers 0,2,3 --group 0 out",
        "card print 4 3 8 --lost 4 --helpers 0,2,3 --group 0 out",
        "card test 4 3 8 3 --lost 4 --helpers 0,2,3 --group 0",
        "card test 4 3 8 3 --lost 4 --helpers 0,2,3 --group -1 k",
        "read c --tray 4",
        "read c --layers 0..1",
        "read c --tray 4 --layers 0",
        "read c --tray 4 --layers 0..",
        "read c --tray 4 --layers 0...1",
        "read c --tray 4 --layers -1..1",
        "read c --tray 4 --layers 0..1 --spare s",
        "recover c --length 5",
        "get c",
        "get c out --length 129",
        "get c out --length all",
        "test c --stripes 0",
        "test c --stripes 4294967290",
        "read c --tray 4 --layers 0..1 --stripe 1",
        "inspect",
    ];
    for line in lines {
        let message = bench.fails(64, line);
        assert!(
            line.is_empty() || message.contains("see: cabinet help"),
            "{message}"
        );
    }
}

#[test]
fn words_after_two_dashes_are_no_settings() {
    let bench = Bench::new();
    for word in ["--layout", "--help"] {
        let message = bench.fails(74, &format!("inspect -- {word}"));
        assert!(
            message.contains(&format!("{word}: no such file")),
            "{message}"
        );
    }
}

#[cfg(unix)]
#[test]
fn words_that_are_no_text_do_no_harm() {
    use std::ffi::OsStr;
    use std::os::unix::ffi::OsStrExt;
    let odd = OsStr::from_bytes(b"\xff\xfe");
    let run = |words: &[&OsStr]| {
        let command = std::process::Command::new(env!("CARGO_BIN_EXE_cabinet"))
            .args(words)
            .output();
        command.expect("the command can be run").status.code()
    };
    assert_eq!(run(&[odd]), Some(64));
    assert_eq!(run(&[OsStr::new("plan"), odd, odd, odd, odd]), Some(64));
    assert_eq!(run(&[OsStr::new("inspect"), odd]), Some(74));
}
