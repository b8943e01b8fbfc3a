//! Every command on the examples, against stored output: transcripts in `tests/stored`, and the one in README. A transcript has a command after `$`,
//! then what it prints, what it says on standard error after `!`, and its status in brackets if that is not 0. With WARD_STORE set, transcripts are
//! written anew, to be read before they are kept.

use crate::support::prompt::{Folder, ROOT, command, run};
use std::fs::{self, File};
use std::path::Path;
use std::process::Stdio;

/// A folder with the examples in a folder of their own, as the repository has them.
pub fn beside_examples() -> Folder {
    let folder = Folder::new();
    fs::create_dir(folder.path().join("examples")).expect("a folder");
    for entry in fs::read_dir(Path::new(ROOT).join("examples")).expect("the examples") {
        let entry = entry.expect("an example");
        fs::copy(entry.path(), folder.path().join("examples").join(entry.file_name())).expect("a copy");
    }
    folder
}

/// The transcript of a command line, run in a folder. `<` names a file for standard input.
fn transcript(line: &str, folder: &Folder) -> String {
    let (arguments, input) = line.split_once(" < ").map_or((line, None), |(arguments, input)| (arguments, Some(input)));
    let words: Vec<&str> = arguments.split(' ').collect();
    assert_eq!(words[0], "ward", "{line}");
    let mut command = command(&words[1..]);
    command.current_dir(folder.path());
    if let Some(input) = input {
        command.stdin(Stdio::from(File::open(folder.path().join(input)).expect("the input")));
    }
    let ran = run(&mut command);
    let said: String = ran.err.lines().map(|line| format!("! {line}\n")).collect();
    let status = if ran.status == 0 { String::new() } else { format!("[{}]\n", ran.status) };
    format!("$ {line}\n{}{said}{status}", ran.out())
}

/// The transcripts of all commands in a text.
fn again(text: &str) -> String {
    let folder = beside_examples();
    text.lines().filter_map(|line| line.strip_prefix("$ ")).map(|line| transcript(line, &folder)).collect()
}

#[test]
fn transcripts_are_as_stored() {
    let mut commands = 0;
    for entry in fs::read_dir("tests/stored").expect("the transcripts") {
        let path = entry.expect("a transcript").path();
        let stored = fs::read_to_string(&path).expect("a transcript");
        let printed = again(&stored);
        if std::env::var_os("WARD_STORE").is_some() {
            fs::write(&path, &printed).expect("a transcript");
        } else {
            for (stored, printed) in stored.lines().zip(printed.lines()) {
                assert_eq!(stored, printed, "{}", path.display());
            }
            assert_eq!(stored, printed, "{}", path.display());
        }
        commands += printed.lines().filter(|line| line.starts_with("$ ")).count();
    }
    assert!(commands >= 60, "{commands} commands");
}

/// The lines of README's section on the tool that are a transcript, without their margin.
fn shown_in_readme() -> String {
    let readme = fs::read_to_string(Path::new(ROOT).join("README.md")).expect("README");
    let section = readme.split("\n## ").find(|section| section.starts_with("At the prompt\n")).expect("the section on the tool");
    let mut lines = String::new();
    let mut within = false;
    for line in section.lines() {
        within = line.starts_with("    $ ") || within && (line.starts_with("    ") || line.is_empty());
        if within {
            lines += line.strip_prefix("    ").unwrap_or(line);
            lines.push('\n');
        }
    }
    lines
}

#[test]
fn readme_shows_what_is_printed() {
    let shown = shown_in_readme();
    let without_blank = |text: &str| text.lines().filter(|line| !line.is_empty()).map(String::from).collect::<Vec<_>>();
    assert_eq!(without_blank(&shown), without_blank(&again(&shown)));
    assert!(shown.lines().filter(|line| line.starts_with("$ ")).count() >= 5);
}
