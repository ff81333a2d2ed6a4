//! The page of how a cabinet stands: the picture, the figures and what to do, in one file.

use crate::drawing::svg::escape;
use crate::drawing::{layout_picture, status_picture};
use crate::status::standing::Standing;
use crate::status::Status;
use crate::terminal::clock;
use crate::terminal::words::{count, grouped};

const STYLE: &str = "\
body { font-family: system-ui, 'DejaVu Sans', Helvetica, Arial, sans-serif; color: #24323f;
  max-width: 960px; margin: 0 auto; padding: 16px; line-height: 1.45; }
h1 { font-size: 26px; margin: 8px 0; } h2 { font-size: 19px; margin: 24px 0 8px; }
pre { background: #24323f; color: #ffffff; padding: 12px 16px; border-radius: 4px;
  white-space: pre-wrap; overflow-wrap: anywhere; font-size: 15px; }
table { border-collapse: collapse; } td, th { text-align: left; padding: 4px 16px 4px 0;
  vertical-align: top; overflow-wrap: anywhere; }
th { font-weight: normal; color: #51606d; white-space: nowrap; }
svg { max-width: 100%; height: auto; display: block; }
footer { color: #51606d; font-size: 13px; margin-top: 24px; }
.verdict { padding: 10px 16px; border-radius: 4px; font-weight: bold; }
.well { background: #dff1e7; } .attention { background: #fbeccb; } .danger { background: #f6d5d1; }
";

/// The whole page.
pub fn write(status: &Status) -> String {
    let title = status.cabinet.description.words();
    let picture = status_picture::draw(status);
    // The picture's declaration is for a file of its own.
    let inner = |picture: &str| match picture.split_once('\n') {
        Some((_, svg)) => svg.to_string(),
        None => String::new(),
    };
    let repair = inner(&layout_picture::draw(&status.cabinet.numbers));
    let picture = inner(&picture);
    format!(
        "<!DOCTYPE html>\n<html lang=\"en\">\n<head>\n<meta charset=\"utf-8\">\n\
         <meta name=\"viewport\" content=\"width=device-width, initial-scale=1\">\n\
         <title>{0}</title>\n<style>\n{STYLE}</style>\n</head>\n<body>\n<h1>{0}</h1>\n{1}{2}\
         <h2>Trays</h2>\n{picture}{3}{4}<h2>How one lost tray comes back</h2>\n{repair}\
         <footer>Written by cabinet status at {5}. Every segment's header was looked at, and its \
         checksum where it has one; parity is tested by cabinet scrub.</footer>\n</body>\n</html>\n",
        escape(&title),
        verdict(status),
        what_to_do(status),
        reasons(status),
        figures(status),
        clock::words(clock::now()),
    )
}

/// How it stands, in one line.
fn verdict(status: &Status) -> String {
    let broken = status
        .trays
        .iter()
        .filter(|of| of.standing != Standing::Live);
    let (class, words) = match (status.survey.margin, broken.count()) {
        (..=-1, _) => ("danger", "Too few trays are live.".to_string()),
        (0, _) => ("danger", "No tray more may be lost.".to_string()),
        (_, 0) if !status.has_text => (
            "attention",
            "cabinet.txt is not as the labels say.".to_string(),
        ),
        (_, 0) if status.is_broken() => (
            "attention",
            "The last scrub found something wrong.".to_string(),
        ),
        (_, 0) => ("well", "Every tray is live.".to_string()),
        (_, 1) => ("attention", "1 tray is not live.".to_string()),
        (_, some) => ("attention", format!("{some} trays are not live.")),
    };
    format!("<p class=\"verdict {class}\">{words}</p>\n")
}

fn what_to_do(status: &Status) -> String {
    let next = status.next();
    let why = escape(&sentence(&next.why));
    match &next.line {
        Some(line) => format!(
            "<h2>What to do</h2>\n<pre>{}</pre>\n<p>{why}</p>\n",
            escape(line)
        ),
        None => format!("<h2>What to do</h2>\n<p>{why}</p>\n"),
    }
}

/// Words as a sentence.
fn sentence(words: &str) -> String {
    let mut letters = words.chars();
    match letters.next() {
        Some(first) => format!("{}{}.", first.to_uppercase(), letters.as_str()),
        None => String::new(),
    }
}

/// Why trays are not live.
fn reasons(status: &Status) -> String {
    let broken = status
        .trays
        .iter()
        .filter(|of| of.standing != Standing::Live);
    let rows = broken.map(|of| {
        let why = of.why.as_ref().map(|why| format!(": {why}"));
        let words = format!("{}{}", of.standing.word(), why.unwrap_or_default());
        row(&format!("tray {}", of.tray), &words)
    });
    table("Trays that are not live", &rows.collect::<String>())
}

fn figures(status: &Status) -> String {
    let (description, numbers) = (&status.cabinet.description, &status.cabinet.numbers);
    let length = description.length.map(|length| grouped(length as usize));
    let mut rows = vec![
        row("trays", &status.counts()),
        row("margin", &status.margin()),
        row("last scrub", &status.last_scrub()),
    ];
    for work in &status.work {
        rows.push(row("open work", &work.words(status.cabinet)));
    }
    rows.push(row("folder", &status.cabinet.folder().to_string_lossy()));
    rows.push(row("layout", &description.name()));
    rows.push(row(
        "survives",
        &format!("any {}", count(numbers.checks, "lost tray")),
    ));
    rows.push(row("stripes", &grouped(description.stripes as usize)));
    rows.extend(length.map(|length| row("bytes of data", &length)));
    rows.push(row("generation", &description.generation.to_string()));
    table("Figures", &rows.concat())
}

fn row(name: &str, words: &str) -> String {
    format!(
        "<tr><th>{}</th><td>{}</td></tr>\n",
        escape(name),
        escape(words.trim_end())
    )
}

/// A table with a heading; nothing where it has no rows.
fn table(heading: &str, rows: &str) -> String {
    match rows {
        "" => String::new(),
        rows => format!("<h2>{heading}</h2>\n<table>\n{rows}</table>\n"),
    }
}
