//! Files, pipes and devices: what is written where, what is left where it was, and that nothing makes the tool panic.

use crate::model;
use crate::support::d1;
use crate::support::logs::{damage, random_log};
use crate::support::prompt::{Folder, command, fed, run, ward};
use crate::support::random::Random;
use std::fs::{self, File};
use std::process::Stdio;

const LOG: &str = "examples/ward.log";

/// The bytes of the tidy log in a file, on standard output, and explained in hexadecimal.
#[test]
fn the_tidy_log_in_three_ways() {
    let mut random = Random(61);
    let folder = Folder::new();
    let out = folder.at("out");
    for _ in 0..40 {
        let log = random_log(&mut random, 9, 9, 30);
        let (day, _) = model::judge(&log).expect("a log");
        let tidy = model::log_bytes(9, 9, &day.runs());
        assert_eq!(fed(&["tidy", "-", "-o", &out], &log).done(), "");
        assert_eq!(fs::read(&out).expect("the log"), tidy);
        assert_eq!(fed(&["tidy", "-o=-", "-"], &log).bytes, tidy);
        let text = fed(&["tidy", "-"], &log).done();
        let byte = |line: &str| -> Vec<u8> { line[..19].split_whitespace().map(|byte| u8::from_str_radix(byte, 16).expect("a byte")).collect() };
        assert_eq!(text.lines().flat_map(byte).collect::<Vec<u8>>(), tidy);
        let contact = |[a, b, first, last]: &[u8; 4]| match first == last {
            true => format!("CT: badges {a} and {b}, tick {first}"),
            false => format!("CT: badges {a} and {b}, ticks {first} to {last}"),
        };
        let (runs, words) = (day.runs(), |line: &str| line[19..].to_string());
        let count = format!("ED: {} CT record{}", runs.len(), if runs.len() == 1 { "" } else { "s" });
        let expected: Vec<String> = [String::from("BH: n 9, T 9")].into_iter().chain(runs.iter().map(contact)).chain([count]).collect();
        assert_eq!(text.lines().map(words).collect::<Vec<_>>(), expected);
    }
}

/// A log may be tidied in its own place; where it is refused, no file is written or changed.
#[test]
fn files_of_refused_commands_stay() {
    let folder = Folder::new();
    let log = folder.file("log", d1::MESSY);
    assert_eq!(ward(&["tidy", &log, "-o", &log]).done(), "");
    assert_eq!(fs::read(&log).expect("the log"), d1::TIDY);
    let (bad, kept, none) = (folder.file("bad", b"BH\x02"), folder.file("kept", b"as it was"), folder.at("none"));
    let refused: [&[&str]; 4] =
        [&["tidy", &bad], &["chart", &bad], &["join", "--quorum", "1", &log, &bad], &["chart", "--plan", "--parts", "9", &log]];
    for arguments in refused {
        for out in [&kept, &none] {
            assert_eq!(ward(&[arguments, &["-o", out]].concat()).status, 1, "{arguments:?}");
        }
    }
    assert_eq!(ward(&["import", &bad, "-o", &kept]).status, 1);
    assert_eq!((fs::read(&kept).expect("a file"), fs::exists(&none).expect("a folder")), (b"as it was".to_vec(), false));
}

#[test]
fn files_that_cannot_be_read_or_written() {
    let folder = Folder::new();
    let (nowhere, here) = (folder.at("no/where"), folder.at(""));
    for name in [&nowhere, &here, "", "examples"] {
        let path: &str = name;
        for arguments in [&["list"][..], &["tidy"], &["show"], &["same", LOG], &["join", "--quorum", "1", LOG], &["chart"], &["import"]] {
            ward(&[arguments, &[path]].concat()).wrong(&format!("ward: {path}: "));
        }
        ward(&["tidy", LOG, "-o", path]).wrong(&format!("ward: {path}: "));
        ward(&["chart", LOG, "-o", path]).wrong(&format!("ward: {path}: "));
    }
    // after -- a name may begin with a dash, and a file may be named so
    ward(&["list", "--", "--json"]).wrong("ward: --json: ");
    let odd = folder.file("--json", &fs::read(format!("../../{LOG}")).expect("the example"));
    assert_eq!(run(command(&["list", "--", "--json"]).current_dir(folder.path())).done(), ward(&["list", &odd]).done());
}

/// A gigabyte, of which a log's command reads as much as decides.
#[test]
fn a_file_of_a_gigabyte() {
    let folder = Folder::new();
    let name = folder.file("large", d1::TIDY);
    File::options().write(true).open(&name).and_then(|file| file.set_len(1 << 30)).expect("a file with a hole");
    ward(&["list", &name]).refused((7, 34));
    ward(&["same", LOG, &name]).refused((7, 34));
    let shown = ward(&["show", &name]);
    assert!(
        shown.out().ends_with("   34  00 00 00 00 00 00  after the end  <- refused 7\n   40  more bytes, which are not judged\nrefused 7 at 34\n")
    );
    let ran = ward(&["import", &name]);
    assert_eq!((ran.status, ran.out()), (1, ""));
}

/// A reader that goes away is no failure; a full device is one.
#[test]
fn pipes_that_are_closed() {
    for arguments in [&["list", "examples/shift.log"][..], &["chart", "examples/shift.log"], &["--help"], &["list", "nowhere"]] {
        let (reader, writer) = std::io::pipe().expect("a pipe");
        drop(reader);
        let status = command(arguments).stdout(writer.try_clone().expect("a pipe")).stderr(writer).status().expect("the tool ends");
        assert_eq!(status.code(), Some(if arguments == ["list", "nowhere"] { 2 } else { 0 }));
    }
    let full = || File::options().write(true).open("/dev/full").expect("a device that is full");
    let ran = run(command(&["list", LOG]).stdout(Stdio::from(full())));
    assert_eq!((ran.status, ran.err.starts_with("ward: standard output: ")), (2, true), "{}", ran.err);
    ward(&["tidy", LOG, "-o", "/dev/full"]).wrong("ward: /dev/full: ");
}

/// Words that arguments are drawn from: the ten commands, and then options, values, files, and nothing.
const WORDS: &str = "list same tidy show join numbers plan trace chart import --json --plan --trace --review --query --span --parts --index --start \
    --quorum --tick --from --to --least-ticks --least-order --least-members -o - -- 0 1 2 3 0-2 127 18446744073709551615 examples/ward.log \
    examples/contacts.txt = --span= help ";

/// Whatever the arguments and the bytes are, it ends with status 0, 1 or 2; a panic would be 101.
#[test]
fn no_panic() {
    let words: Vec<&str> = WORDS.split(' ').collect();
    let mut random = Random(62);
    for _ in 0..600 {
        let mut arguments = vec![words[random.below(10)]];
        arguments.extend((0..random.below(7)).map(|_| words[random.below(words.len())]));
        // what is written goes to standard output: no word after -o names a file
        let arguments: Vec<&str> =
            arguments.iter().enumerate().map(|(at, word)| if at > 0 && arguments[at - 1] == "-o" { "-" } else { word }).collect();
        let mut log = random_log(&mut random, 4, 4, 6);
        if random.below(2) == 0 {
            damage(&mut random, &mut log);
        }
        let ran = fed(&arguments, &log);
        assert!((0..=2).contains(&ran.status), "{arguments:?}: {}", ran.err);
        assert!(ran.status != 0 || !ran.bytes.starts_with(b"refused"), "{arguments:?}");
        assert!(ran.status != 2 || ran.bytes.is_empty(), "{arguments:?}");
    }
}

/// The log of the larger example is what its generator writes.
#[test]
fn the_larger_example_is_generated() {
    assert_eq!(fs::read("../../examples/shift.log").expect("the example"), super::shift::log());
}
