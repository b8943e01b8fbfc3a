//! Every refusal that can come at a prompt: its line, or its object in JSON; what it means; and status 1.

use crate::model;
use crate::support::json::Json;
use crate::support::prompt::{Folder, fed, ward};
use crate::support::{logs, refused_logs};

/// The commands that read one log, with what they need.
const READERS: [&[&str]; 9] = [
    &["list", "-"],
    &["tidy", "-"],
    &["numbers", "--span", "0", "-"],
    &["plan", "--parts", "1", "-"],
    &["trace", "--index", "0", "-"],
    &["chart", "-"],
    &["chart", "--plan", "--parts", "1", "-"],
    &["same", "-", "examples/ward.log"],
    &["same", "examples/ward.log", "-"],
];

/// All logs are tried with some of the commands, each command with logs of every number.
#[test]
fn refused_logs_in_every_command() {
    let many = (1..=3).map(|more| ((5, 48004), logs::long(9, 9, 8000 + more)));
    let all: Vec<_> = refused_logs::all().map(|(refusal, log)| (*refusal, log.to_vec())).chain(many).collect();
    for (place, (refusal, log)) in all.iter().enumerate() {
        for reader in [READERS[place % READERS.len()], READERS[(place + 4) % READERS.len()]] {
            let ran = fed(reader, log);
            ran.refused(*refusal);
            assert!(ran.err.starts_with("ward: standard input: "), "{}", ran.err);
        }
        let shown = fed(&["show", "-"], log);
        shown.explains(refusal.0);
        marked(shown.out(), *refusal, log);
    }
}

/// What `show` prints of a refused log: the records before the refused one, that one with a mark, and the refusal.
fn marked(shown: &str, (number, offset): (u8, usize), log: &[u8]) {
    let lines: Vec<&str> = shown.lines().collect();
    assert_eq!(lines.last(), Some(&&*format!("refused {number} at {offset}")));
    let at = lines.iter().position(|line| line.ends_with(&format!("  <- refused {number}"))).expect("a mark");
    let before = if offset == 0 { 0 } else { 1 + (offset - 4) / 6 };
    assert_eq!(at, before, "{shown}");
    assert!(lines[at].starts_with(&format!("{offset:>5}  ")), "{shown}");
    let bytes = |line: &str| {
        line[7..26].trim().split(' ').filter(|byte| !byte.is_empty()).map(|byte| u8::from_str_radix(byte, 16).expect("a byte")).collect()
    };
    let printed: Vec<u8> = lines[..=at].iter().flat_map(|line| -> Vec<u8> { bytes(line) }).collect();
    assert!(log.starts_with(&printed) && printed.len() >= log.len().min(offset + 4), "{shown}");
    assert_eq!(lines.len(), at + if printed.len() < log.len() { 3 } else { 2 }, "{shown}");
}

#[test]
fn refusals_in_json() {
    for (arguments, number) in [
        (&["list", "--json", "--least-ticks", "0"][..], 17),
        (&["list", "--json", "--review", "9"], 20),
        (&["numbers", "--json", "--span", "9"], 12),
        (&["plan", "--json", "--parts", "9"], 14),
        (&["trace", "--json", "--index", "9"], 22),
    ] {
        let ran = ward(&[arguments, &["examples/ward.log"]].concat());
        ran.explains(number);
        let object = Json::read(ran.out());
        assert_eq!((ran.status, object.at("refused"), object.at("offset")), (1, &Json::Number(number.into()), &Json::Number(0)));
        let meaning = ward::Refusal::from_number(number.into()).expect("a refusal").meaning();
        assert_eq!(object.at("meaning"), &Json::Text(meaning.to_string()));
    }
    let ran = fed(&["same", "--json", "examples/ward.log", "-"], b"BH\x02\x01CT\x00\x00\x00\x00");
    assert_eq!(Json::read(ran.out()).at("offset").number(), 4);
}

/// Of several logs the one is named that is refused, with the place in it; the line has the offset from the start of the first.
#[test]
fn a_refused_log_among_several() {
    let folder = Folder::new();
    let good = folder.file("good", &model::log_bytes(5, 4, &[[0, 1, 0, 0]]));
    for (refusal, log) in refused_logs::all().step_by(5) {
        let bad = folder.file("bad", log);
        let ran = ward(&["join", "--quorum", "1", &good, &bad, "nowhere.log"]);
        ran.wrong("nowhere.log");
        let ran = ward(&["join", "--quorum", "1", &good, &bad, &bad]);
        ran.refused((refusal.0, 16 + refusal.1));
        assert!(ran.err.starts_with(&format!("ward: {bad} at {}: ", refusal.1)), "{}", ran.err);
        let ran = ward(&["join", "--quorum", "1", &bad, &good]);
        ran.refused(*refusal);
        assert!(ran.err.starts_with(&format!("ward: {bad} at {}: ", refusal.1)), "{}", ran.err);
    }
    let other = folder.file("other", &model::log_bytes(5, 5, &[]));
    let ran = ward(&["join", "--quorum", "1", &good, &other]);
    ran.refused((19, 0));
    assert!(ran.err.starts_with("ward: the logs together: "), "{}", ran.err);
}

/// Two logs of 4,200 contacts each, all of them apart: together too many for one log. The joined day can be listed, and not be written.
#[test]
fn a_joined_day_that_no_log_holds() {
    let folder = Folder::new();
    let log = |from: usize| {
        let contacts = (from..from + 4200).map(|run| [run / 48 / 120, 8 + run / 48 % 120, run % 48 * 2, run % 48 * 2].map(|x| x as u8));
        folder.file(&from.to_string(), &model::log_bytes(128, 96, &contacts.collect::<Vec<_>>()))
    };
    let (a, b, out) = (log(0), log(4200), folder.at("out"));
    assert!(ward(&["join", "--quorum", "1", &a, &b]).done().starts_with("badges 128 ticks 96 groups "));
    ward(&["join", "--quorum", "1", &a, &b, "-o", &out]).refused((15, 0));
    assert!(!std::path::Path::new(&out).exists());
}
