//! What people write and read at the terminal: command lines, help, lines of words, maps and bars.

pub mod arguments;
pub mod cabinet_map;
pub mod clock;
pub mod completion;
pub mod dump;
pub mod help;
pub mod json;
pub mod manual;
pub mod progress;
pub mod report;
pub mod runs;
pub mod screen;
pub mod scrub_map;
pub mod status_map;
pub mod traffic;
pub mod words;
