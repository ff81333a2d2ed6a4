//! The choice of a layout: which are listed, in which order, and with which figures.

use crate::bench::{assert_readable, Bench};

/// The rows of a table: a layout in brackets, then seven cells.
fn rows(text: &str) -> Vec<(String, Vec<String>)> {
    let rows = text.lines().filter_map(|line| {
        let (layout, cells) = line.strip_prefix("  (")?.split_once(')')?;
        let cells = cells.replace(" %", "%");
        let cells = cells.split_whitespace().map(str::to_string).collect();
        Some((format!("({layout})"), cells))
    });
    rows.collect()
}

/// The numbers of a layout in brackets, with spaces between.
fn words(layout: &str) -> String {
    layout.replace(['(', ')', ','], "")
}

#[test]
fn the_flagship_is_found() {
    let text = Bench::new().done("choose --trays 30 --survive 6 --rack 3");
    assert_readable(&text);
    let wanted = "\
Layouts of 30 trays in racks of 3, of which any 6 may be lost
  layout             field  lost    data      L  traffic  of plain  at once
  (10, 3, 24, 9)       256     6  79.4 %  1,024    4,608    18.8 %        3
  (10, 3, 23, 9, 1)    256     7  76.1 %      1        9    39.1 %        1
  (10, 3, 20, 9, 1)    256    10  66.1 %  1,024    4,608    22.5 %        1
";
    assert!(text.starts_with(wanted), "{text}");
}

#[test]
fn both_fields_and_what_less_data_brings() {
    let bench = Bench::new();
    let text = bench.done("choose --trays 12 --survive 4");
    assert_readable(&text);
    let listed: Vec<String> = rows(&text).into_iter().map(|(layout, _)| layout).collect();
    // The second of these repairs three lost trays of a rack, the first only one.
    for layout in [
        "(4, 3, 8, 3)",
        "(4, 3, 6, 3)",
        "(4, 3, 5, 3, 1)",
        "(3, 4, 8, 2)",
    ] {
        assert!(listed.contains(&layout.to_string()), "{layout} in\n{text}");
    }
    // As much data as the first, and more traffic.
    assert!(!listed.contains(&"(4, 3, 8, 2)".to_string()), "{text}");
    let all = bench.done("choose --trays 12 --survive 4 --all");
    assert!(
        rows(&all)
            .iter()
            .any(|(layout, _)| layout == "(4, 3, 8, 2)"),
        "{all}"
    );
    let left = rows(&all).len() - rows(&text).len();
    assert!(
        text.ends_with(&format!("  {left} more with --all\n")),
        "{text}"
    );
}

#[test]
fn every_row_is_as_planned() {
    let bench = Bench::new();
    for line in ["--trays 20 --survive 5", "--trays 24 --survive 6"] {
        for (layout, cells) in rows(&bench.done(&format!("choose {line}"))) {
            let [field, lost, _, layers, traffic, plain, once] = &cells[..] else {
                panic!("{layout}: {cells:?}");
            };
            let plan = bench.done(&format!("plan {} --field {field}", words(&layout)));
            let number = |row: &str| {
                let line = plan.lines().find(|line| line.contains(row));
                let line = line.unwrap_or_else(|| panic!("no {row} in\n{plan}"));
                line.split_whitespace().last().map(str::to_string)
            };
            assert_eq!(number("checks a layer").as_ref(), Some(lost), "{layout}");
            assert_eq!(
                number("symbols in a tray").as_ref(),
                Some(layers),
                "{layout}"
            );
            assert_eq!(number("at a time").as_ref(), Some(once), "{layout}");
            let plain = plain.replace('%', " %");
            let symbols = if traffic == "1" { "symbol" } else { "symbols" };
            let words = [
                format!(": {traffic} {symbols} in place of"),
                format!("or {plain}"),
            ];
            assert!(
                words.iter().all(|words| plan.contains(words)),
                "{layout}:\n{plan}"
            );
        }
    }
}

#[test]
fn most_data_comes_first() {
    let bench = Bench::new();
    for line in ["--trays 36 --survive 4", "--trays 60 --survive 6 --all"] {
        let rows = rows(&bench.done(&format!("choose {line}")));
        let part = |cell: &String| cell.trim_end_matches('%').parse::<f64>().expect("a part");
        let data: Vec<f64> = rows.iter().map(|(_, cells)| part(&cells[2])).collect();
        assert!(
            data.len() > 10 && data.is_sorted_by(|a, b| a >= b),
            "{data:?}"
        );
        let lost = |cells: &[String]| cells[1].parse::<u32>().expect("a number");
        assert!(rows.iter().all(|(_, cells)| lost(cells) >= 4), "{rows:?}");
    }
}

/// All layouts of four trays of which two may be lost, by the library's own word.
#[test]
fn all_are_all() {
    let bench = Bench::new();
    let mut wanted = Vec::new();
    for (racks, size) in [(4, 1), (2, 2), (1, 4)] {
        for (k, d, e) in (0..=2).flat_map(|k| (0..=4).flat_map(move |d| [0, 1].map(|e| (k, d, e))))
        {
            let layout = format!("{racks} {size} {k} {d} {e}");
            for field in ["256", "257"] {
                let planned = bench.run(&format!("plan {layout} --field {field}"));
                if planned.status == 0 {
                    wanted.push(format!("{} {field}", layout.trim_end_matches(" 0")));
                }
            }
        }
    }
    let all = bench.done("choose --trays 4 --survive 2 --all");
    let mut found: Vec<String> = rows(&all)
        .iter()
        .map(|(layout, cells)| format!("{} {}", words(layout), cells[0]))
        .collect();
    wanted.sort();
    found.sort();
    assert_eq!(found, wanted);
}

#[test]
fn a_size_says_stripes_files_and_traffic() {
    let bench = Bench::new();
    let text = bench.done("choose --trays 30 --survive 6 --rack 3 --size 100000000");
    assert_readable(&text);
    // 24,576 bytes and 4,608 symbols that cross for a stripe; a label of 512 bytes, 1,024 symbols a
    // stripe, and 24 + 8 bytes for each of 1,018 segments.
    let wanted = "4,070 stripes, 4,200,768 bytes a tray, 18,754,560 in its repair";
    assert!(
        text.contains(&format!("18.8 %        3\n      {wanted}\n")),
        "{text}"
    );
    // 480 bytes a stripe; 64 bytes of symbols, and 64 symbols of two bytes that cross.
    let text = bench.done("choose --trays 20 --survive 5 --rack 4 --size 481");
    let wanted = "2 stripes, 672 bytes a tray, 256 in its repair";
    assert!(
        text.contains(&format!("13.3 %        1\n      {wanted}\n")),
        "{text}"
    );
    let text = bench.done("choose --trays 20 --survive 5 --rack 4 --size 1");
    assert!(
        text.contains("\n      1 stripe, 608 bytes a tray, 128 in its repair\n"),
        "{text}"
    );
    // A stripe has a volume number of its own, of 32 bits.
    let most = (1u64 << 32) * 480 - 480;
    for (size, fits) in [(most, true), (most + 1, false), (u64::MAX, false)] {
        let text = bench.done(&format!(
            "choose --trays 20 --survive 5 --rack 4 --size {size}"
        ));
        let mut lines = text.lines();
        let row = lines.find(|line| line.starts_with("  (5, 4, 15, 4) "));
        assert!(row.is_some(), "{text}");
        let first = lines.next().unwrap_or_default();
        assert_eq!(
            first.starts_with("      4,294,967,295 stripes, "),
            fits,
            "{first}"
        );
        assert_eq!(
            first.starts_with("      too much: more stripes"),
            !fits,
            "{first}"
        );
    }
}

#[test]
fn where_no_layout_does_it() {
    let bench = Bench::new();
    for line in [
        "--trays 61 --survive 1",
        "--trays 4294967295 --survive 4294967295",
        "--trays 4294967295 --survive 0",
        "--trays 0 --survive 0",
        "--trays 1 --survive 0",
        "--trays 12 --survive 12",
        "--trays 12 --survive 4 --rack 5",
        "--trays 12 --survive 4 --rack 6",
        "--trays 12 --survive 4 --rack 0",
    ] {
        bench.refused(1, &format!("choose {line}"));
    }
    for line in [
        "",
        "--trays 12",
        "--survive 4",
        "--trays 12 --survive many",
        "12 4",
    ] {
        bench.fails(64, &format!("choose {line}"));
    }
}

/// The table of layouts in README, as the command prints it today.
#[test]
fn the_table_in_readme_is_current() {
    let bench = Bench::new();
    let readme = include_str!("../../../../README.md");
    let table = readme.lines().filter(|line| line.contains("| ("));
    let mut found = 0;
    for line in table {
        let cells: Vec<&str> = line.trim_matches('|').split('|').map(str::trim).collect();
        let [trays, layout, cells @ ..] = &cells[..] else {
            panic!("{line}");
        };
        let cells: Vec<String> = cells.iter().map(|cell| cell.replace(" %", "%")).collect();
        let text = bench.done(&format!("choose --trays {trays} --survive {}", cells[1]));
        let row = (layout.to_string(), cells);
        assert!(rows(&text).contains(&row), "{line}\n{text}");
        found += 1;
    }
    assert!(found >= 12, "{found} layouts");
}
