//! A day, and the proved calls on it, with room for any answer; what they answer in bytes is taken apart into records.

use std::ffi::OsStr;
use ward::{Refused, Thresholds};

use crate::failure::Failure;
use crate::files::{read_log, shown};

/// A day in words, and what it was read from.
pub struct Day {
    pub badges: usize,
    pub ticks: usize,
    words: Vec<u64>,
    name: String,
}

/// A group of a report or a part of a plan: its order or score, its span and its members.
#[derive(Clone, Copy)]
pub struct Record {
    pub order: usize,
    pub first: usize,
    pub last: usize,
    pub members: u128,
}

/// Who was reached, when and from whom.
pub struct Trace {
    pub index: usize,
    pub start: usize,
    /// For each badge its tick and its source, where it has them.
    pub ticks: Vec<Option<usize>>,
    pub sources: Vec<Option<usize>>,
}

impl Day {
    pub fn read(name: &OsStr) -> Result<Day, Failure> {
        let log = read_log(name)?;
        let (mut words, name) = (vec![0; ward::WORDS], shown(name));
        match ward::read(&log, &mut words) {
            Ok(day) => Ok(Day { badges: day.badges, ticks: day.ticks, words, name }),
            Err(refused) => Err(Failure::refused(refused, name)),
        }
    }

    /// The day that logs make at a quorum; and in which log a refused record lies, by its offset from the start of the first.
    pub fn join(logs: &[Vec<u8>], quorum: usize) -> Result<Day, Refused> {
        let lengths: Vec<usize> = logs.iter().map(Vec::len).collect();
        let (mut words, mut work) = (vec![0; ward::WORDS], vec![0; ward::JOIN_WORK_WORDS]);
        let day = ward::join(&logs.concat(), &lengths, quorum, &mut words, &mut work)?;
        Ok(Day { badges: day.badges, ticks: day.ticks, words, name: String::from("the joined day") })
    }

    /// The day that has just these contacts: tick after tick the set of each badge.
    pub fn of_sets(badges: usize, ticks: usize, sets: &[u128], name: String) -> Day {
        Day { badges, ticks, words: ward::words_of(sets), name }
    }

    fn failure(&self, refused: Refused) -> Failure {
        Failure::refused(refused, format!("{}, with {} badges and {} ticks", self.name, self.badges, self.ticks))
    }

    pub fn name(&self) -> &str {
        &self.name
    }

    /// Its tidy log.
    pub fn write(&self) -> Result<Vec<u8>, Failure> {
        let mut log = vec![0; ward::LOG_BYTES];
        let size = ward::write(&self.words, self.badges, self.ticks, &mut log).map_err(|refused| self.failure(refused))?;
        log.truncate(size);
        Ok(log)
    }

    pub fn groups(&self, review: u128, thresholds: Thresholds) -> Result<Vec<Record>, Failure> {
        let mut report = vec![0; ward::report_bytes(self.badges, self.ticks)];
        let size = ward::report(&self.words, self.badges, self.ticks, review, thresholds, &mut report);
        let size = size.map_err(|refused| self.failure(refused))?;
        Ok(self.records(&report[4..size]))
    }

    pub fn plan(&self, review: u128, query: u128, parts: usize) -> Result<Vec<Record>, Failure> {
        let mut plan = [0; ward::PLAN_BYTES];
        let size = ward::plan(&self.words, self.badges, self.ticks, review, query, parts, &mut plan);
        let size = size.map_err(|refused| self.failure(refused))?;
        Ok(self.records(&plan[5 + self.set_bytes()..size]))
    }

    pub fn numbers(&self, review: u128, first: usize, last: usize) -> Result<Vec<u8>, Failure> {
        let mut numbers = vec![0; ward::CORE_NUMBERS];
        let size = ward::core_numbers(&self.words, self.badges, self.ticks, review, first, last, &mut numbers);
        numbers.truncate(size.map_err(|refused| self.failure(refused))?);
        Ok(numbers)
    }

    pub fn trace(&self, index: usize, start: usize) -> Result<Trace, Failure> {
        let mut trace = [0; ward::TRACE_BYTES];
        let size = ward::trace(&self.words, self.badges, self.ticks, index, start, &mut trace).map_err(|refused| self.failure(refused))?;
        let numbers = |bytes: &[u8]| bytes.iter().map(|byte| (*byte != ward::NONE).then_some(usize::from(*byte))).collect();
        let (ticks, sources) = trace[..size].split_at(self.badges);
        Ok(Trace { index, start, ticks: numbers(ticks), sources: numbers(sources) })
    }

    /// How many pairs are in contact in each tick: each is in the sets of both badges.
    pub fn contacts(&self) -> Vec<usize> {
        let ticks = self.words.chunks(2 * self.badges).take(self.ticks);
        ticks.map(|words| words.iter().map(|word| word.count_ones() as usize).sum::<usize>() / 2).collect()
    }

    /// The bytes of a set in a report or a plan.
    fn set_bytes(&self) -> usize {
        if self.badges <= 64 { 8 } else { 16 }
    }

    /// The records of a report or a plan: mark, order or score, first tick, last tick, members; before an end of 6 bytes.
    fn records(&self, bytes: &[u8]) -> Vec<Record> {
        let record = |bytes: &[u8]| Record {
            order: bytes[2].into(),
            first: bytes[3].into(),
            last: bytes[4].into(),
            members: bytes[5..].iter().rev().fold(0, |set, byte| set << 8 | u128::from(*byte)),
        };
        bytes[..bytes.len() - 6].chunks(5 + self.set_bytes()).map(record).collect()
    }
}

impl Trace {
    /// The badges that were reached, in the order of their ticks and then of their numbers, the index first.
    pub fn reached(&self) -> Vec<usize> {
        let mut reached: Vec<usize> = (0..self.ticks.len()).filter(|badge| self.ticks[*badge].is_some()).collect();
        reached.sort_by_key(|badge| (self.ticks[*badge], *badge != self.index, *badge));
        reached
    }

    /// The set of those that were not.
    pub fn never(&self) -> u128 {
        (0..self.ticks.len()).filter(|badge| self.ticks[*badge].is_none()).fold(0, |set, badge| set | 1 << badge)
    }
}

/// The badges of a set, rising.
pub fn members(set: u128) -> impl Iterator<Item = usize> {
    (0..ward::BADGES).filter(move |badge| set >> badge & 1 == 1)
}

/// The badges of a set in a line, each after a space.
pub fn listed(set: u128) -> String {
    members(set).map(|badge| format!(" {badge}")).collect()
}
