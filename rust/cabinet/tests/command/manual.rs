//! Manual pages and completion for shells, made from the commands' own help.

use crate::bench::Bench;
use std::process::Command;

/// The names of all commands, as help lists them.
fn commands(bench: &Bench) -> Vec<String> {
    let help = bench.done("help");
    let lines = help.lines().skip_while(|line| *line != "Commands").skip(1);
    let lines = lines.take_while(|line| !line.is_empty());
    let names = lines.filter_map(|line| line.split_whitespace().next());
    names.map(str::to_string).collect()
}

/// The settings that a command's help names, each at the beginning of a line.
fn settings(help: &str) -> Vec<&str> {
    let words = help.lines().filter_map(|line| line.strip_prefix("  "));
    let words = words.filter_map(|line| line.split_whitespace().next());
    words.filter(|word| word.starts_with("--")).collect()
}

/// Whether a program is on this machine.
fn installed(program: &str) -> bool {
    Command::new(program).arg("--version").output().is_ok()
}

#[test]
fn every_command_has_a_page_with_its_settings() {
    let bench = Bench::new();
    let whole = bench.done("manual");
    for command in commands(&bench) {
        assert!(
            whole.contains(&format!("\n.B cabinet {command}\n")),
            "{command}"
        );
        let page = bench.done(&format!("manual {command}"));
        assert!(page.starts_with(".TH CABINET\\-"), "{page}");
        for setting in settings(&bench.done(&format!("help {command}"))) {
            let head = format!("\n.B {}", setting.replace('-', "\\-"));
            assert!(page.contains(&head), "{command} {setting}");
        }
    }
    bench.fails(64, "manual wash");
}

#[test]
fn pages_are_as_man_reads_them() {
    let bench = Bench::new();
    if !installed("groff") {
        println!("groff is not installed: pages were not laid out");
        return;
    }
    let mut lines = vec!["manual".to_string()];
    lines.extend(
        commands(&bench)
            .iter()
            .map(|command| format!("manual {command}")),
    );
    for line in lines {
        let ended = bench.shell(&format!(
            "$cabinet {line} | groff -man -Tascii -ww >/dev/null"
        ));
        assert_eq!((ended.status, ended.err.as_str()), (0, ""), "{line}");
    }
}

#[test]
fn bash_completes_commands_settings_and_files() {
    let bench = Bench::new();
    bench.write("cellar", b"");
    bench.write("completion", bench.done("completion bash").as_bytes());
    let complete = |words: &str, at: usize| {
        let lines = format!(
            "compopt() {{ :; }}\n. ./completion\nCOMP_WORDS=({words})\nCOMP_CWORD={at}\n_cabinet\n\
             printf '%s ' \"${{COMPREPLY[@]}}\""
        );
        bench.write("lines", lines.as_bytes());
        let ended = bench.shell("bash ./lines");
        assert_eq!(ended.err, "", "{words}");
        ended.out.trim().to_string()
    };
    assert_eq!(complete("cabinet rec", 1), "recover");
    assert_eq!(complete("cabinet help rec", 2), "recover");
    assert_eq!(complete("cabinet repair --hel", 2), "--helpers");
    assert_eq!(complete("cabinet repair cel", 2), "cellar");
    assert_eq!(complete("cabinet repair --budget ''", 3), "");
    let all = complete("cabinet ''", 1);
    for command in commands(&bench) {
        assert!(all.split(' ').any(|word| word == command), "{command}");
    }
}

#[test]
fn other_shells_read_their_completion() {
    let bench = Bench::new();
    for (shell, flag) in [("zsh", "-n"), ("fish", "--no-execute")] {
        let text = bench.done(&format!("completion {shell}"));
        assert!(
            text.contains("--helpers") || text.contains("-l helpers"),
            "{text}"
        );
        bench.write("completion", text.as_bytes());
        if installed(shell) {
            let ended = bench.shell(&format!("{shell} {flag} completion"));
            assert_eq!((ended.status, ended.err.as_str()), (0, ""), "{shell}");
        }
    }
    bench.fails(64, "completion csh");
}
