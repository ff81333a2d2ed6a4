//! `cabinet completion`: what a shell has to know to complete command lines.

use super::Command;
use crate::disk::Disk;
use crate::failure::{Failure, Outcome};
use crate::terminal::arguments::Arguments;
use crate::terminal::completion::Shell;
use crate::terminal::screen::Screen;

pub const COMMAND: Command = Command {
    name: "completion",
    summary: "print completion for bash, zsh or fish",
    help: HELP,
    settings: &[],
    run,
};

const HELP: &str = "\
cabinet completion SHELL

Prints the completion of commands and settings for a shell, bash, zsh or fish:

    source <(cabinet completion bash)
    cabinet completion zsh > _cabinet                  # in a folder of $fpath
    cabinet completion fish > ~/.config/fish/completions/cabinet.fish
";

fn run(arguments: &Arguments, _: &dyn Disk, screen: &mut Screen) -> Result<Outcome, Failure> {
    let [name] = arguments.words(["SHELL"])?;
    let shell = name.to_str().and_then(Shell::named);
    let shell = shell.ok_or_else(|| {
        let name = name.to_string_lossy();
        Failure::Usage(format!("'{name}' is not bash, zsh or fish"))
    })?;
    screen.line(shell.completion().trim_end());
    Ok(Outcome::Done)
}
