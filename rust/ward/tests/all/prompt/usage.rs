//! Wrong usage: status 2, nothing on standard output, and words on standard error that say what is wrong.

use super::help::COMMANDS;
use crate::support::prompt::{command, run, ward};
use std::ffi::{OsStr, OsString};
use std::os::unix::ffi::OsStrExt;

const LOG: &str = "examples/ward.log";

#[test]
fn commands_that_are_none() {
    ward(&[] as &[&str]).wrong("no command");
    for name in ["lists", "", "LIST", "-", "--", "--json", "examples/ward.log", "liſt", "list\n"] {
        ward(&[name]).wrong("ward: no command");
        ward(&["help", name]).wrong("ward: no command");
    }
}

#[test]
fn files_too_few_or_too_many() {
    for name in COMMANDS {
        let needed: &[&str] = match name {
            "join" => &["--quorum", "1"],
            _ => &[],
        };
        ward(&[&[name], needed].concat()).wrong(&format!("ward {name}: too few files"));
        if name != "join" {
            ward(&[name, LOG, LOG, LOG]).wrong(&format!("ward {name}: too many files"));
        }
    }
    ward(&["same", LOG]).wrong("too few files: it takes two logs");
    ward(&["list", LOG, LOG]).wrong("too many files: it takes one LOG");
    ward(&["same", "-", "-"]).wrong("standard input can be read once");
    ward(&["join", "--quorum", "1", "-", LOG, "-"]).wrong("standard input can be read once");
}

#[test]
fn options_that_are_none_or_wrong() {
    let all: [(&[&str], &str); 13] = [
        (&["list", "--least", "3", LOG], "ward list: no option --least"),
        (&["list", "-x", LOG], "ward list: no option -x"),
        (&["list", "-o", "out", LOG], "ward list: no option -o"),
        (&["list", "-5", LOG], "no option -5"),
        (&["list", "--json", "--json", LOG], "--json is given twice"),
        (&["list", "--json=yes", LOG], "--json takes no value"),
        (&["list", "--least-ticks", "1", "--least-ticks=1", LOG], "--least-ticks is given twice"),
        (&["list", LOG, "--least-ticks"], "--least-ticks needs a value"),
        (&["tidy", LOG, "-o"], "-o needs a value"),
        (&["tidy", "--json", LOG], "no option --json"),
        (&["show", "--review", "1", LOG], "no option --review"),
        (&["import", "--json", LOG], "no option --json"),
        (&["join", "--quorum", "1", "--json", LOG, LOG], "no option --json"),
    ];
    for (arguments, words) in all {
        let ran = ward(arguments);
        ran.wrong(words);
        ran.wrong("--help` shows how it is used");
    }
}

#[test]
fn options_that_are_missing() {
    ward(&["join", LOG, LOG]).wrong("ward join: --quorum is missing");
    ward(&["numbers", LOG]).wrong("ward numbers: --span is missing");
    ward(&["plan", "--query", "1", LOG]).wrong("ward plan: --parts is missing");
    ward(&["trace", LOG]).wrong("ward trace: --index is missing");
    ward(&["chart", "--plan", LOG]).wrong("ward chart: --parts is missing");
    ward(&["chart", "--trace", LOG]).wrong("ward chart: --index is missing");
}

#[test]
fn numbers_that_are_none() {
    for text in ["", " ", "x", "1x", "+1", "-1", "1.0", "0x1", " 1", "1 ", "18446744073709551616", "99999999999999999999", "１", "1-2"] {
        for arguments in [
            ["list", "--least-ticks"],
            ["list", "--least-order"],
            ["list", "--least-members"],
            ["join", "--quorum"],
            ["plan", "--parts"],
            ["trace", "--index"],
            ["import", "--tick"],
            ["import", "--from"],
            ["import", "--to"],
        ] {
            ward(&[arguments[0], arguments[1], text, LOG]).wrong(&format!("{} {text}: it should be a number", arguments[1]));
        }
        ward(&["trace", "--index", "1", "--start", text, LOG]).wrong("--start");
    }
    for text in ["", "-", "3-", "-3", "3--4", "3-4-5", "a-b", "3..4", "3 4", "3,4"] {
        ward(&["numbers", "--span", text, LOG]).wrong(&format!("--span {text}: it should be a first and a last tick"));
    }
}

#[test]
fn badge_lists_with_holes_or_words() {
    for text in
        ["", ",", "1,", ",1", "1,,2", "1, 2", "ann", "1,b", "1-", "-1", "3-1", "1-2-3", "128", "0-128", "1,999999999999999999999", "1;2", "0..3"]
    {
        for arguments in [&["list", "--review"][..], &["numbers", "--span", "0", "--review"], &["plan", "--parts", "1", "--review"]] {
            ward(&[arguments, &[text, LOG]].concat()).wrong(&format!("--review {text}: it should be badges from 0 to 127"));
        }
        ward(&["plan", "--parts", "1", "--query", text, LOG]).wrong(&format!("--query {text}: it should be badges"));
        ward(&["chart", "--review", text, LOG]).wrong("--review");
    }
}

#[test]
fn pictures_have_options_of_their_own() {
    ward(&["chart", "--plan", "--trace", LOG]).wrong("two pictures");
    for option in ["--query", "--parts", "--index", "--start"] {
        ward(&["chart", option, "1", LOG]).wrong(&format!("{option} says nothing of groups"));
    }
    for option in ["--index", "--start", "--least-ticks", "--least-order", "--least-members"] {
        ward(&["chart", "--plan", "--parts", "1", option, "1", LOG]).wrong(&format!("{option} says nothing of a plan"));
    }
    for option in ["--query", "--parts", "--review", "--least-ticks", "--least-order", "--least-members"] {
        ward(&["chart", "--trace", "--index", "1", option, "1", LOG]).wrong(&format!("{option} says nothing of a trace"));
    }
}

#[test]
fn windows_that_are_none() {
    ward(&["import", "--tick", "0", "examples/contacts.txt"]).wrong("a tick has a second at least");
    for [from, to] in [["5", "5"], ["6", "5"], ["18446744073709551615", "0"]] {
        ward(&["import", "--from", from, "--to", to, "examples/contacts.txt"]).wrong("--to is not after --from");
    }
    ward(&["import", "--to", "0", "examples/contacts.txt"]).wrong("--to is not after --from");
}

/// What is not text is shown as far as it is; a wrong argument is wrong before a file is looked at.
#[test]
fn arguments_that_are_no_text() {
    let odd = OsStr::from_bytes(b"\xff\xfe\n\x1b[1m");
    let ran = |arguments: &[&OsStr]| run(&mut command(arguments));
    ran(&[odd]).wrong("no command \u{fffd}\u{fffd}\u{fffd}\u{fffd}[1m");
    ran(&["list".as_ref(), odd]).wrong("\u{fffd}[1m: ");
    ran(&["list".as_ref(), "--review".as_ref(), odd, LOG.as_ref()]).wrong("it should be badges");
    ran(&["list".as_ref(), &OsString::from_iter([OsStr::new("--"), odd])]).wrong("no option");
    ward(&["list", "--review", "x", "nowhere.log"]).wrong("it should be badges");
}
