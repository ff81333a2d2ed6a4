//! Help texts: of the whole, and of one command.

use crate::commands::{Command, COMMANDS};
use crate::failure::{refusals, STATUSES};
use crate::terminal::screen::Screen;
use crate::terminal::words::hanging;

/// Name and version.
pub const VERSION: &str = concat!("cabinet ", env!("CARGO_PKG_VERSION"));

/// What the command is for, in a line.
pub const SUMMARY: &str = "keep files in cabinets of trays, any r of which may be lost";

/// What the command does, and how a line of it is written.
pub const OPENING: &str = "\
Plans, stores, tests, recovers and repairs cabinets of trays. A cabinet is a
folder of tray files, tray-00.img and on, with a description, cabinet.txt. A
file of any length is stored in stripes, each a codeword of its own; a tray file
has the tray's image of every stripe. The symbols are bytes, or modulo 257
(--field 257) for racks of 2, 4, 8 or 16 trays.

  cabinet COMMAND WORDS..      do it
  cabinet help COMMAND         what a command does, and how it is written
  cabinet --version            name and version
";

/// Prints what there is.
pub fn print_all(screen: &mut Screen) {
    screen.line(OPENING);
    screen.heading("Commands");
    for Command { name, summary, .. } in COMMANDS {
        screen.line(format!("  {name:<10} {summary}"));
    }
    screen.gap();
    screen.heading("Exit status");
    screen.line("   0  done");
    for refusal in refusals() {
        screen.line(status(refusal.number(), &refusal.to_string()));
    }
    for (number, words) in STATUSES {
        screen.line(status(number.into(), words));
    }
}

fn status(number: u32, words: &str) -> String {
    hanging(&format!("  {number:>2}  "), words)
}

/// Prints one command's help.
pub fn print(command: &Command, screen: &mut Screen) {
    screen.heading(format!("cabinet {}: {}", command.name, command.summary));
    screen.gap();
    screen.line(command.help);
    for setting in command.all_settings() {
        let head = format!("{} {}", setting.name, setting.value.unwrap_or_default());
        screen.line(hanging(&format!("  {head:<22}"), setting.words));
    }
    screen.gap();
    screen.line("Exit status: 0 done, 1 to 15 a refusal's number, 64 on: see cabinet help");
}
