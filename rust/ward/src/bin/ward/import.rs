//! A log from a text of contacts, lines of `seconds i j` in any order, as the SocioPatterns project publishes them. Names become badges in the order
//! in which they are first seen, and seconds become ticks of so many seconds each.

use crate::arguments::{Given, number};
use crate::day::Day;
use crate::failure::Failure;
use crate::{Said, files, records};
use std::collections::BTreeMap;
use std::io::{BufRead, BufReader, Read};

/// A line may have so many bytes, its end counted.
const LINE_BYTES: usize = 4096;
const TICK_SECONDS: usize = 300;

/// Which seconds are taken, and how many make a tick. Ticks count from `from`, or else from a multiple of their length.
struct Window {
    tick: usize,
    from: Option<usize>,
    to: Option<usize>,
}

/// The contacts of a text, as far as they can be a log's: the first and the last second, the names, and for each window of a tick the set of each badge.
#[derive(Default)]
struct Contacts {
    seconds: Option<(usize, usize)>,
    names: Vec<String>,
    windows: BTreeMap<usize, Vec<u128>>,
}

pub fn import(given: &Given) -> Result<Said, Failure> {
    let window = Window::of(given)?;
    let name = &given.files[0];
    let mut contacts = Contacts::default();
    let mut text = BufReader::new(files::open(name)?);
    let (mut line, mut place) = (Vec::new(), 0);
    while text.by_ref().take(LINE_BYTES as u64).read_until(b'\n', &mut line).map_err(|error| Failure::file(name, error))? > 0 {
        place += 1;
        contacts.take(&line, &window).map_err(|what| wrong_line(&files::shown(name), place, what))?;
        line.clear();
    }
    let day = contacts.day(&window, files::shown(name))?;
    let log = day.write()?;
    let table = contacts.table(&day, &window, &log);
    match given.value("-o") {
        Some(out) if out == files::STANDARD => Ok(Said { err: table, ..Said::done(log) }),
        Some(out) => files::write(out, log).map(|said| Said { out: table.into(), ..said }),
        None => Ok(Said::done(table + &records::explained(&log))),
    }
}

fn wrong_line(name: &str, place: usize, (what, mend): (String, &str)) -> Failure {
    Failure::Contacts { what: format!("{name}, line {place}: {what}"), mend: mend.to_string() }
}

impl Window {
    fn of(given: &Given) -> Result<Window, Failure> {
        let window = Window { tick: given.number("--tick")?.unwrap_or(TICK_SECONDS), from: given.number("--from")?, to: given.number("--to")? };
        if window.tick == 0 {
            return Err(given.wrong("--tick 0: a tick has a second at least"));
        }
        match (window.from, window.to) {
            (from, Some(to)) if from.unwrap_or(0) >= to => Err(given.wrong("--to is not after --from")),
            _ => Ok(window),
        }
    }

    fn has(&self, second: usize) -> bool {
        self.from.is_none_or(|from| from <= second) && self.to.is_none_or(|to| second < to)
    }

    /// In which window of a tick a second lies that is taken.
    fn place(&self, second: usize) -> usize {
        (second - self.from.unwrap_or(0)) / self.tick
    }
}

const MEND_LINE: &str = "give a line for each contact: seconds as a whole number, and two names, with spaces between";

impl Contacts {
    /// Takes one line. An empty one and one that begins with # say nothing, and what follows the second name is not looked at.
    fn take(&mut self, line: &[u8], window: &Window) -> Result<(), (String, &'static str)> {
        if line.len() == LINE_BYTES && !line.ends_with(b"\n") {
            return Err((format!("it has {LINE_BYTES} bytes or more"), MEND_LINE));
        }
        let text = std::str::from_utf8(line).map_err(|_| (String::from("it is not text in UTF-8"), MEND_LINE))?;
        let mut words = text.trim_start_matches('\u{feff}').split_whitespace();
        let (second, pair) = match (words.next(), words.next(), words.next()) {
            (None, ..) => return Ok(()),
            (Some(word), ..) if word.starts_with('#') => return Ok(()),
            (Some(second), Some(i), Some(j)) => (second, [i, j]),
            _ => return Err((String::from("it has fewer than three words"), MEND_LINE)),
        };
        let Some(second) = number(second) else {
            return Err((format!("'{}' is no number of seconds", files::printable(second.as_ref())), MEND_LINE));
        };
        if window.has(second) { self.meet(second, window, pair) } else { Ok(()) }
    }

    fn meet(&mut self, second: usize, window: &Window, [i, j]: [&str; 2]) -> Result<(), (String, &'static str)> {
        if i == j {
            let what = format!("'{}' is in contact with itself", files::printable(i.as_ref()));
            return Err((what, "name two people in each line"));
        }
        let (i, j) = (self.badge(i)?, self.badge(j)?);
        let (first, last) = self.seconds.unwrap_or((second, second));
        self.seconds = Some((first.min(second), last.max(second)));
        // of more windows than a log has ticks no log is made, so their contacts need not be kept
        if self.windows.len() <= ward::TICKS {
            let sets = self.windows.entry(window.place(second)).or_insert_with(|| vec![0; ward::BADGES]);
            sets[i] |= 1 << j;
            sets[j] |= 1 << i;
        }
        Ok(())
    }

    /// The badge of a name, a new one where it is first seen.
    fn badge(&mut self, name: &str) -> Result<usize, (String, &'static str)> {
        if let Some(badge) = self.names.iter().position(|known| known == name) {
            return Ok(badge);
        }
        let badge = self.names.len();
        if name.chars().any(char::is_control) {
            return Err((format!("the name '{}' has a character that is none to read", files::printable(name.as_ref())), MEND_LINE));
        }
        if badge == ward::BADGES {
            let what = format!("too many badges: '{name}' is name number {}, and a log has at most {}", badge + 1, ward::BADGES);
            return Err((what, "leave people out, or take a part of the day by --from and --to, in which fewer are seen"));
        }
        self.names.push(name.to_string());
        Ok(badge)
    }

    /// The day that the contacts make.
    fn day(&self, window: &Window, name: String) -> Result<Day, Failure> {
        let Some((first, last)) = self.seconds else {
            let mend = String::from("give lines of `seconds i j`, of which --from and --to leave some");
            return Err(Failure::Contacts { what: format!("{name}: no contact"), mend });
        };
        let start = if window.from.is_some() { 0 } else { window.place(first) };
        let end = window.place(window.to.map_or(last, |to| to - 1));
        let ticks = (end - start).saturating_add(1);
        if ticks > ward::TICKS {
            let least = (window.to.unwrap_or(last) - window.from.unwrap_or(first)).div_ceil(ward::TICKS - 1);
            let what = format!("{name}: too many ticks: it takes {ticks} of {} s each, and a log has at most {}", window.tick, ward::TICKS);
            return Err(Failure::Contacts { what, mend: format!("--tick {least} or longer, or a part of the day by --from and --to") });
        }
        let badges = self.names.len();
        let none = vec![0; ward::BADGES];
        let sets = (start..=end).flat_map(|place| self.windows.get(&place).unwrap_or(&none)[..badges].iter().copied());
        Ok(Day::of_sets(badges, ticks, &sets.collect::<Vec<_>>(), name))
    }

    /// The sizes of the log, when its ticks are, and the name of each badge.
    fn table(&self, day: &Day, window: &Window, log: &[u8]) -> String {
        let records = records::whole(log).count() - 2;
        let first = self.seconds.map_or(0, |(first, _)| window.from.unwrap_or(first - first % window.tick));
        let sizes = format!("badges {} ticks {} records {records}\n", day.badges, day.ticks);
        let ticks = format!("tick 0 from second {first}, {} seconds a tick\n", window.tick);
        let names: String = self.names.iter().enumerate().map(|(badge, name)| format!("badge {badge} {name}\n")).collect();
        sizes + &ticks + &names
    }
}
