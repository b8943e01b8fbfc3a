//! Help: each command has it, and its example works.

use super::stored::beside_examples;
use crate::support::prompt::{command, run, ward};

pub const COMMANDS: [&str; 10] = ["list", "same", "tidy", "show", "join", "numbers", "plan", "trace", "chart", "import"];

/// The example at the end of a help text.
fn example(help: &str) -> Vec<String> {
    let (_, example) = help.split_once("\nExample:\n  ward ").expect("an example");
    example.strip_suffix('\n').expect("the last line").split(' ').map(String::from).collect()
}

#[test]
fn examples_work() {
    let folder = beside_examples();
    for help in COMMANDS.map(|name| ward(&[name, "--help"]).done()).iter().chain([&ward(&["--help"]).done()]) {
        let ran = run(command(&example(help)).current_dir(folder.path()));
        assert!(ran.status == 0 || ran.status == 1 && ran.out().starts_with("different\n"), "{help}{}", ran.err);
    }
}

#[test]
fn help_is_asked_in_three_ways_whatever_else_is_given() {
    for name in COMMANDS {
        let help = ward(&[name, "--help"]).done();
        assert!(help.starts_with(&format!("ward {name} ")), "{help}");
        assert!(example(&help)[0] == name && help.lines().all(|line| line.chars().count() <= 80), "{help}");
        for asked in [&["help", name][..], &[name, "-h"], &[name, "--help", "a", "b", "c", "d", "e"]] {
            assert_eq!(ward(asked).done(), help);
        }
    }
    let help = ward(&["--help"]).done();
    assert!(COMMANDS.iter().all(|name| help.contains(&format!("\n  {name} "))), "{help}");
    assert_eq!([ward(&["-h"]).done(), ward(&["help"]).done()], [help.as_str(), help.as_str()]);
    assert_eq!(ward(&["--version"]).done(), "ward 0.1.0\n");
}

/// Every option that a help text names is one of that command, and every one needs a value where the text shows one.
#[test]
fn options_in_help_are_there() {
    for name in COMMANDS {
        let help = ward(&[name, "--help"]).done();
        let options = help.split([' ', '\n', ',', '[', ']', ';', '`']).filter(|word| word.starts_with("--") || *word == "-o");
        for option in options {
            let ran = ward(&[name, option]);
            assert!(ran.status == 2 || option == "--help", "{name} {option}");
            assert!(!ran.err.contains("no option"), "{}", ran.err);
        }
    }
}
