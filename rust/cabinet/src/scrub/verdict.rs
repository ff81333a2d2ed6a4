//! What a scrub of all layers has found, in words and as an exit status.

use super::Scrub;
use crate::failure::{Failure, Outcome};
use crate::files::cabinet::Cabinet;
use crate::terminal::screen::{Paint, Screen};
use crate::terminal::words::{hanging, trays};

/// Says what was found: bad layers and wrong trays are a failure, trays that are missing are not
/// tested.
pub fn conclude(scrub: &Scrub, cabinet: &Cabinet, screen: &mut Screen) -> Result<Outcome, Failure> {
    scrub.report(screen);
    scrub.faults.say(cabinet, screen);
    if !scrub.findings.is_sound() {
        return Err(Failure::Contents(scrub.findings.conclusion()));
    }
    if !scrub.faults.is_empty() {
        return Err(Failure::Contents(format!(
            "bad: {} (see above); cabinet recover writes what is wrong anew",
            trays(&scrub.faults.trays())
        )));
    }
    let tested = match (scrub.checks, cabinet.geometry.has_checksums()) {
        (0, false) => {
            let words = screen.paint(Paint::Warning, "not tested");
            screen.line(format!("  {words}: no tray to spare"));
            return Ok(Outcome::NotTested);
        }
        (0, true) => "has the checksums that were written; no tray to spare for checks".to_string(),
        (checks, _) => format!("meets all {checks} checks"),
    };
    let sound = screen.paint(Paint::Good, "sound");
    let layers = scrub.findings.layer_count();
    screen.line(hanging(
        "  ",
        &format!("{sound}: each of {layers} layers {tested}"),
    ));
    match &scrub.unused[..] {
        [] => Ok(Outcome::Done),
        missing => {
            let words = screen.paint(Paint::Warning, "not tested");
            screen.line(hanging("  ", &format!("{words}: {}", trays(missing))));
            Ok(Outcome::NotTested)
        }
    }
}
