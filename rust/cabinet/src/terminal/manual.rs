//! Manual pages, made from the commands' own help.

use super::help::{OPENING, SUMMARY, VERSION};
use crate::commands::{Command, COMMANDS};
use crate::failure::{refusals, STATUSES};

/// The page of the whole command, cabinet(1).
pub fn whole() -> String {
    let mut page = Page::new("cabinet", SUMMARY);
    page.section("SYNOPSIS");
    page.verbatim("cabinet COMMAND WORDS..\ncabinet help COMMAND\ncabinet --version");
    page.section("DESCRIPTION");
    page.paragraphs(OPENING);
    page.section("COMMANDS");
    for Command { name, summary, .. } in COMMANDS {
        page.item(&format!("cabinet {name}"), summary);
    }
    page.section("EXIT STATUS");
    page.item("0", "done");
    for refusal in refusals() {
        page.item(&refusal.number().to_string(), &refusal.to_string());
    }
    for (number, words) in STATUSES {
        page.item(&number.to_string(), words);
    }
    page.see_also(COMMANDS.iter().map(|command| page_name(command.name)));
    page.text
}

/// The page of one command, cabinet-COMMAND(1).
pub fn of(command: &Command) -> String {
    let mut page = Page::new(&page_name(command.name), command.summary);
    let (synopsis, description) = command
        .help
        .split_once("\n\n")
        .unwrap_or((command.help, ""));
    page.section("SYNOPSIS");
    page.verbatim(synopsis);
    page.section("DESCRIPTION");
    page.paragraphs(description);
    let settings = command.all_settings();
    if !settings.is_empty() {
        page.section("SETTINGS");
    }
    for setting in settings {
        let head = format!("{} {}", setting.name, setting.value.unwrap_or_default());
        page.item(head.trim_end(), setting.words);
    }
    page.section("EXIT STATUS");
    page.paragraphs("0 done, 1 to 15 a refusal's number, 16 on: see cabinet(1).");
    page.see_also(["cabinet".to_string()]);
    page.text
}

/// What the page of a command is called.
fn page_name(command: &str) -> String {
    format!("cabinet-{command}")
}

/// A page as it is written.
struct Page {
    text: String,
}

impl Page {
    /// A page's first lines: its title, its name and what it is about.
    fn new(name: &str, summary: &str) -> Page {
        let title = name.to_uppercase();
        let text = format!(
            ".TH {} 1 \"\" \"{VERSION}\" \"User Commands\"\n",
            plain(&title)
        );
        let mut page = Page { text };
        page.section("NAME");
        page.line(&format!("{} \\- {}", plain(name), plain(summary)));
        page
    }

    fn line(&mut self, line: &str) {
        self.text.push_str(line);
        self.text.push('\n');
    }

    fn section(&mut self, title: &str) {
        self.line(&format!(".SH {title}"));
    }

    /// Lines that stay as they are.
    fn verbatim(&mut self, lines: &str) {
        self.line(".nf");
        for line in lines.lines() {
            self.line(&plain(line));
        }
        self.line(".fi");
    }

    /// Paragraphs; one with an indented line is a drawing or a list and stays as it is.
    fn paragraphs(&mut self, text: &str) {
        for paragraph in text.trim_end().split("\n\n") {
            self.line(".PP");
            if paragraph.lines().any(|line| line.starts_with(' ')) {
                self.verbatim(paragraph);
                continue;
            }
            for line in paragraph.lines() {
                self.line(&plain(line));
            }
        }
    }

    /// A head with words that explain it.
    fn item(&mut self, head: &str, words: &str) {
        self.line(".TP");
        self.line(&format!(".B {}", plain(head)));
        self.line(&plain(words));
    }

    fn see_also(&mut self, pages: impl IntoIterator<Item = String>) {
        self.section("SEE ALSO");
        let pages: Vec<String> = pages
            .into_iter()
            .map(|page| format!(".BR {} (1)", plain(&page)))
            .collect();
        self.line(&pages.join(" ,\n"));
    }
}

/// Text that roff prints as it is.
fn plain(text: &str) -> String {
    let text = text.replace('\\', "\\e").replace('-', "\\-");
    match text.starts_with(['.', '\'']) {
        true => format!("\\&{text}"),
        false => text,
    }
}

#[cfg(test)]
mod tests {
    use super::{plain, whole};

    #[test]
    fn nothing_is_taken_for_a_request() {
        assert_eq!(plain(".. and on"), "\\&.. and on");
        assert_eq!(plain("a\\b --c"), "a\\eb \\-\\-c");
    }

    #[test]
    fn every_line_is_a_request_or_text() {
        let known = [".TH", ".SH", ".PP", ".TP", ".B", ".BR", ".nf", ".fi"];
        for line in whole().lines().filter(|line| line.starts_with('.')) {
            let request = line.split(' ').next().unwrap_or_default();
            assert!(known.contains(&request), "{line}");
        }
    }
}
