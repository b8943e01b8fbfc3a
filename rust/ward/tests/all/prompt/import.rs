//! Logs from lines of text: the contacts that they name, in ticks, by badges in the order of first sight; and texts of which no log can be made.

use crate::model::{self, Day};
use crate::support::prompt::{Folder, fed, ward};
use crate::support::random::Random;

/// Contacts at random: seconds, and two of so many people.
fn contacts(random: &mut Random, people: usize, from: usize, seconds: usize, count: usize) -> Vec<(usize, usize, usize)> {
    let mut contact = || {
        let i = random.below(people);
        (from + random.below(seconds), i, (i + 1 + random.below(people - 1)) % people)
    };
    (0..count).map(|_| contact()).collect()
}

fn name(person: usize) -> String {
    format!("{}{person}", ["ann", "Müller-", "O'Neil", "p<&>"][person % 4])
}

/// Lines of text, with further words, comments, empty lines and other spaces here and there.
fn text(random: &mut Random, contacts: &[(usize, usize, usize)]) -> String {
    let mut line = |(second, i, j): &(usize, usize, usize)| {
        let (i, j) = (name(*i), name(*j));
        match random.below(6) {
            0 => format!("{second}\t{i}\t{j}\tNUR\tPAT\n"),
            1 => format!("# {second} nobody nowhere\n\n  {second}  {i} {j}\r\n"),
            _ => format!("{second} {i} {j}\n"),
        }
    };
    contacts.iter().map(&mut line).collect()
}

/// The people of contacts in the order of first sight.
fn sighted(contacts: &[(usize, usize, usize)]) -> Vec<usize> {
    let mut people = Vec::new();
    for (_, i, j) in contacts {
        for person in [i, j] {
            if !people.contains(person) {
                people.push(*person);
            }
        }
    }
    people
}

/// The day of contacts: tick 0 starts at a second, and there are so many ticks of so many seconds.
fn day(contacts: &[(usize, usize, usize)], people: &[usize], start: usize, tick: usize, ticks: usize) -> Day {
    let badge = |person: &usize| people.iter().position(|known| known == person).expect("a badge");
    let mut day = Day::empty(people.len(), ticks);
    for (second, i, j) in contacts {
        day.meet((second - start) / tick, badge(i), badge(j));
    }
    day
}

fn table(people: &[usize], day: &Day, start: usize, tick: usize) -> String {
    let names: String = people.iter().enumerate().map(|(badge, person)| format!("badge {badge} {}\n", name(*person))).collect();
    format!("badges {} ticks {} records {}\ntick 0 from second {start}, {tick} seconds a tick\n{names}", day.n, day.ticks, day.runs().len())
}

fn log(day: &Day) -> Vec<u8> {
    model::log_bytes(day.n as u8, day.ticks as u8, &day.runs())
}

/// Random contacts in any order, and the same in another order with the people sighted as before: the logs are as the contacts say, and the same.
#[test]
fn contacts_in_any_order() {
    let (mut random, folder) = (Random(51), Folder::new());
    for _ in 0..40 {
        let (people, tick) = (2 + random.below(40), [1, 20, 300][random.below(3)]);
        let (from, count) = (random.below(100_000), 1 + random.below(200));
        let mut given = contacts(&mut random, people, from, 90 * tick, count);
        let people = sighted(&given);
        let start = given.iter().map(|contact| contact.0).min().expect("a contact") / tick * tick;
        let end = given.iter().map(|contact| contact.0).max().expect("a contact");
        let day = day(&given, &people, start, tick, (end - start) / tick + 1);
        let (out, t) = (folder.at("log"), tick.to_string());
        let ran = fed(&["import", "--tick", &t, "-", "-o", &out], text(&mut random, &given).as_bytes());
        assert_eq!(ran.done(), table(&people, &day, start, tick));
        assert_eq!(std::fs::read(&out).expect("the log"), log(&day));

        given.reverse();
        given.sort_by_key(|contact| contact.1 > contact.2);
        let sights: Vec<_> = people.windows(2).map(|pair| (start, pair[0], pair[1])).collect();
        let all = |rest: &[(usize, usize, usize)]| [&sights[..], rest].concat();
        let one = fed(&["import", "--tick", &t, "-", "-o", "-"], text(&mut random, &all(&given)).as_bytes());
        given.sort();
        let other = fed(&["import", "--tick", &t, "-", "-o", "-"], text(&mut random, &all(&given)).as_bytes());
        assert_eq!((one.status, one.bytes.len() > 10), (0, true));
        assert_eq!(one, other);
        let (a, b) = (folder.file("a", &one.bytes), folder.file("b", &other.bytes));
        assert_eq!(ward(&["same", &a, &b]).done(), "same\n");
    }
}

/// A part of the day: what is before `--from`, or at `--to` and later, is not there, nor the names that are seen there alone.
#[test]
fn a_part_of_the_day() {
    let mut random = Random(52);
    for _ in 0..40 {
        let given = contacts(&mut random, 30, 0, 100_000, 2000);
        let (from, tick) = (random.below(80_000), 1 + random.below(200));
        let ticks = 1 + random.below(96);
        let to = from + (ticks - 1) * tick + 1 + random.below(tick);
        let part: Vec<_> = given.iter().copied().filter(|contact| (from..to).contains(&contact.0)).collect();
        if part.is_empty() {
            continue;
        }
        let people = sighted(&part);
        let day = day(&part, &people, from, tick, ticks);
        let numbers = [from, to, tick].map(|number| number.to_string());
        let options = ["--from", &numbers[0], "--to", &numbers[1], "--tick", &numbers[2]];
        let ran = fed(&[&["import", "-o", "-", "-"], &options[..]].concat(), text(&mut random, &given).as_bytes());
        assert_eq!((ran.status, ran.bytes, ran.err), (0, log(&day), table(&people, &day, from, tick)));
    }
}

/// A text that no log can be made of: status 1, nothing on standard output, and what is wrong with what would mend it.
fn wrong(arguments: &[&str], text: &[u8], what: &str, mend: &str) {
    let ran = fed(&[&["import", "-"], arguments].concat(), text);
    let lines: Vec<&str> = ran.err.lines().collect();
    assert_eq!((ran.status, ran.out(), lines.len()), (1, "", 2), "{}", ran.err);
    assert!(lines[0].starts_with(&format!("ward: standard input{what}")), "{what} is not {}", lines[0]);
    assert!(lines[1].starts_with(&format!("ward: to mend it: {mend}")), "{mend} is not {}", lines[1]);
}

#[test]
fn lines_that_are_no_contact() {
    let mend = "give a line for each contact: seconds as a whole number";
    wrong(&[], b"1 a b\n2 a\n", ", line 2: it has fewer than three words", mend);
    wrong(&[], b"# t i j\n\nt i j\n", ", line 3: 't' is no number of seconds", mend);
    for seconds in ["-1", "1.5", "1e3", "+1", "18446744073709551616", "\x1b[1m"] {
        let shown = seconds.replace('\x1b', "\u{fffd}");
        wrong(&[], format!("{seconds} a b").as_bytes(), &format!(", line 1: '{shown}' is no number of seconds"), mend);
    }
    wrong(&[], b"1 a b\n1 c\xff d\n", ", line 2: it is not text in UTF-8", mend);
    wrong(&[], b"1 a\x07 b\n", ", line 1: the name 'a\u{fffd}' has a character that is none to read", mend);
    wrong(&[], &[b'1'; 5000], ", line 1: it has 4096 bytes or more", mend);
    wrong(&[], b"1 a b\n7 a a x\n", ", line 2: 'a' is in contact with itself", "name two people in each line");
    for empty in [&b""[..], b"\n\n", b"# 1 a b\n", "\u{feff}".as_bytes()] {
        wrong(&[], empty, ": no contact", "give lines of `seconds i j`");
    }
    wrong(&["--from", "2"], b"1 a b\n", ": no contact", "give lines");
    wrong(&["--to", "1"], b"1 a b\n", ": no contact", "give lines");
}

/// 128 badges and 96 ticks are taken, and one more is refused, by what there is too much of.
#[test]
fn too_much_for_a_log() {
    let pairs = |count: usize| -> String { (1..count).map(|person| format!("{} p0 p{person}\n", person % 96 * 300)).collect() };
    let ran = fed(&["import", "-", "-o", "-"], pairs(128).as_bytes());
    assert_eq!((ran.status, &ran.bytes[..4]), (0, &b"BH\x80\x60"[..]));
    wrong(&[], pairs(129).as_bytes(), ", line 128: too many badges: 'p128' is name number 129, and a log has at most 128", "leave people out");

    let last = |second: &str| format!("299 a b\n{second} a b\n").into_bytes();
    let ran = fed(&["import", "-", "-o", "-"], &last("28799"));
    assert_eq!((ran.status, &ran.bytes[..4]), (0, &b"BH\x02\x60"[..]));
    let ticks = ": too many ticks: it takes 97 of 300 s each, and a log has at most 96";
    wrong(&[], &last("28800"), ticks, "--tick 301 or longer, or a part of the day");
    let most = ": too many ticks: it takes 61489146912365173 of 300 s each";
    wrong(&[], &last("18446744073709551615"), most, "--tick 194176253407468962 or longer");
    wrong(&["--from", "0", "--to", "28801"], &last("28799"), ticks, "--tick 304 or longer");
    for arguments in [&["--tick", "301"][..], &["--tick", "1000000"], &["--from", "300"], &["--to", "28800"]] {
        assert_eq!(fed(&[&["import", "-"], arguments].concat(), &last("28800")).status, 0, "{arguments:?}");
    }

    // 173 pairs that meet in every other tick: 8,304 runs, of which a log holds 8,000; 166 make 7,968
    let runs = |pairs: usize| -> String {
        let pair = |k: usize| (0..96).step_by(2).map(move |tick| format!("{} a{} b{}\n", tick * 300, k % 20, k / 20)).collect::<String>();
        (0..pairs).map(pair).collect()
    };
    assert_eq!(fed(&["import", "-", "-o", "-"], runs(166).as_bytes()).bytes.len(), 10 + 6 * 7968);
    let ran = fed(&["import", "-"], runs(173).as_bytes());
    ran.refused((15, 0));
    assert!(ran.err.starts_with("ward: standard input, with 29 badges and 95 ticks: the tidy log would need more than 8,000 contact records"));
}

/// A tick as `--tick` was told to be by the message is long enough, whatever the seconds.
#[test]
fn the_tick_that_would_do_does() {
    let mut random = Random(53);
    for _ in 0..60 {
        let [first, last] = [random.below(100_000), 100_000 + random.below(1_000_000)];
        let text = format!("{last} a b\n{first} b c\n");
        let (from, to) = (random.below(first + 1).to_string(), (last + 1 + random.below(1000)).to_string());
        let window: Vec<&str> = [["--from", &from], ["--to", &to]].into_iter().filter(|_| random.below(2) == 0).flatten().collect();
        let ran = fed(&[&["import", "-", "--tick", "7"], &window[..]].concat(), text.as_bytes());
        assert_eq!(ran.status, 1);
        let (_, tick) = ran.err.split_once("to mend it: --tick ").expect("a tick that would do");
        let tick: usize = tick.split(' ').next().and_then(|tick| tick.parse().ok()).expect("a number");
        for tick in [tick, tick + 1, 2 * tick] {
            let ran = fed(&[&["import", "-", "--tick", &tick.to_string()], &window[..]].concat(), text.as_bytes());
            assert_eq!(ran.status, 0, "--tick {tick} {window:?}: {}", ran.err);
        }
    }
}
