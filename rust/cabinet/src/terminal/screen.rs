//! What the commands print: plain lines, with colour only on a terminal.

use crate::failure::Failure;
use crate::terminal::json::Json;
use std::env;
use std::io::{self, IsTerminal, Write};

/// How a word stands out on a terminal.
#[derive(Clone, Copy)]
pub enum Paint {
    Strong,
    Good,
    Warning,
    Bad,
}

impl Paint {
    fn code(self) -> &'static str {
        match self {
            Paint::Strong => "1",
            Paint::Good => "32",
            Paint::Warning => "33",
            Paint::Bad => "31",
        }
    }
}

/// Standard output. A reader that goes away (`cabinet demo | head`) stops no work.
pub struct Screen {
    colour: bool,
    trouble: Option<io::Error>,
    /// What was printed, where it is kept and not seen.
    pub kept: Option<String>,
    /// The facts of a report, where one is printed in place of all lines.
    report: Option<Facts>,
    /// Whether no line is printed.
    is_quiet: bool,
    /// Whether lines go to standard error: the data of a cabinet go to standard output.
    gives_way: bool,
}

/// Names of a report with their values, in their order.
pub type Facts = Vec<(&'static str, Json)>;

impl Screen {
    /// Standard output, in colour if it is a terminal and NO_COLOR is not set.
    pub fn open() -> Screen {
        let unwanted = env::var_os("NO_COLOR").is_some_and(|value| !value.is_empty());
        let dumb = env::var_os("TERM").is_some_and(|value| value == "dumb");
        Screen {
            colour: io::stdout().is_terminal() && !unwanted && !dumb,
            trouble: None,
            kept: None,
            report: None,
            is_quiet: false,
            gives_way: false,
        }
    }

    /// A screen on which nothing is seen.
    pub fn silent() -> Screen {
        Screen {
            colour: false,
            trouble: None,
            kept: Some(String::new()),
            report: None,
            is_quiet: false,
            gives_way: false,
        }
    }

    /// From here on no line is printed: at the end there is one report of all facts.
    pub fn begin_report(&mut self) {
        self.colour = false;
        self.report = Some(Vec::new());
    }

    /// From here on no line is printed; a report still is.
    pub fn be_quiet(&mut self) {
        self.is_quiet = true;
    }

    /// From here on lines go to standard error.
    pub fn give_way(&mut self) {
        self.gives_way = true;
        self.colour = self.colour && io::stderr().is_terminal();
    }

    /// Takes a fact into the report, if there is one; in place of an earlier one of this name.
    pub fn fact(&mut self, name: &'static str, value: impl Into<Json>) {
        if let Some(report) = &mut self.report {
            report.retain(|(known, _)| *known != name);
            report.push((name, value.into()));
        }
    }

    /// Does a task whose facts are kept apart from those of the report.
    pub fn apart<T>(&mut self, task: impl FnOnce(&mut Screen) -> T) -> (T, Facts) {
        let before = self.report.as_mut().map(std::mem::take);
        let done = task(self);
        let facts = std::mem::replace(&mut self.report, before);
        (done, facts.unwrap_or_default())
    }

    /// Prints the report: these facts, then all others.
    pub fn end_report(&mut self, head: Facts) {
        if let Some(facts) = self.report.take() {
            let whole = Json::Object([head, facts].concat());
            self.is_quiet = false;
            self.line(whole.to_string());
        }
    }

    /// Prints one line, or several.
    pub fn line(&mut self, text: impl AsRef<str>) {
        if self.report.is_some() || self.is_quiet {
            return;
        }
        if let Some(kept) = &mut self.kept {
            kept.push_str(text.as_ref());
            kept.push('\n');
            return;
        }
        if self.trouble.is_none() {
            let text = text.as_ref();
            self.trouble = match self.gives_way {
                true => writeln!(io::stderr(), "{text}").err(),
                false => writeln!(io::stdout(), "{text}").err(),
            };
        }
    }

    /// Prints an empty line.
    pub fn gap(&mut self) {
        self.line("");
    }

    /// Prints a line that stands out.
    pub fn heading(&mut self, text: impl AsRef<str>) {
        let painted = self.paint(Paint::Strong, text.as_ref());
        self.line(painted);
    }

    /// The text, painted where there is colour.
    pub fn paint(&self, paint: Paint, text: &str) -> String {
        if self.colour {
            format!("\x1b[{}m{text}\x1b[0m", paint.code())
        } else {
            text.to_string()
        }
    }

    /// Says whether everything could be printed, to whoever was still reading.
    pub fn close(self) -> Result<(), Failure> {
        match self.trouble.or_else(|| io::stdout().flush().err()) {
            Some(error) if error.kind() != io::ErrorKind::BrokenPipe => {
                Err(Failure::File(format!("standard output: {error}")))
            }
            _ => Ok(()),
        }
    }
}
