//! The calls on words with lent memory, each against the model: the answer, and every word and byte that was lent.

use super::lent::Lent;
use super::seen::refusal;
use crate::model::{self, Cores, Day, Graph, Least, PLAIN, Record, Refusal, full};
use std::cell::OnceCell;

/// Words that are handed over with n, T and a set of badges under review, and what the model makes of them.
pub struct Handed {
    words: Vec<u64>,
    n: usize,
    ticks: usize,
    review: u128,
    day: Result<Day, Refusal>,
    cores: OnceCell<Cores>,
    groups: OnceCell<Vec<Record>>,
}

/// The calls, into so many bytes: each gives what it wrote.
impl Handed {
    /// With all n badges under review, or all 128 where there are more.
    pub fn new(words: &[u64], n: usize, ticks: usize) -> Handed {
        Handed::reviewing(words, n, ticks, full(n.min(128)))
    }

    pub fn reviewing(words: &[u64], n: usize, ticks: usize, review: u128) -> Handed {
        let day = model::check(words, n, ticks);
        Handed { words: words.to_vec(), n, ticks, review, day, cores: OnceCell::new(), groups: OnceCell::new() }
    }

    pub fn write(&self, room: usize) -> Result<Vec<u8>, Refusal> {
        let call = |words: &[u64], out: &mut [u8]| ward::write(words, self.n, self.ticks, out);
        self.compare("write", room, self.log(), call)
    }

    pub fn trace(&self, index: usize, start: usize, room: usize) -> Result<Vec<u8>, Refusal> {
        let call = |words: &[u64], out: &mut [u8]| ward::trace(words, self.n, self.ticks, index, start, out);
        self.compare("trace", room, self.traced(index, start), call)
    }

    pub fn core_numbers(&self, first: usize, last: usize, room: usize) -> Result<Vec<u8>, Refusal> {
        let call = |words: &[u64], out: &mut [u8]| ward::core_numbers(words, self.n, self.ticks, self.review, first, last, out);
        self.compare("core numbers", room, self.numbers(first, last), call)
    }

    /// The plain report.
    pub fn report(&self, room: usize) -> Result<Vec<u8>, Refusal> {
        self.filtered(PLAIN, room)
    }

    /// The report under thresholds.
    pub fn filtered(&self, least: Least, room: usize) -> Result<Vec<u8>, Refusal> {
        let [ticks, order, members] = least;
        let thresholds = ward::Thresholds { ticks, order, members };
        let call = |words: &[u64], out: &mut [u8]| ward::report(words, self.n, self.ticks, self.review, thresholds, out);
        self.compare("report", room, self.groups(least), call)
    }

    pub fn plan(&self, query: u128, parts: usize, room: usize) -> Result<Vec<u8>, Refusal> {
        let call = |words: &[u64], out: &mut [u8]| ward::plan(words, self.n, self.ticks, self.review, query, parts, out);
        self.compare("plan", room, self.parts(query, parts), call)
    }

    fn compare(
        &self,
        name: &'static str,
        room: usize,
        answer: Result<Vec<u8>, Refusal>,
        call: impl Fn(&[u64], &mut [u8]) -> Result<usize, ward::Refused>,
    ) -> Result<Vec<u8>, Refusal> {
        let (mut words, mut out) = (Lent::holding(&self.words), Lent::room(room));
        let size = call(words.slice(), out.slice()).map_err(|r| refusal(name, r));
        let written = answer.and_then(|bytes| model::delivered(bytes, room));
        assert_eq!(size, written.as_ref().map(Vec::len).map_err(|r| *r));
        out.holds(written.as_deref().unwrap_or(&[]));
        words.is_unchanged();
        written
    }
}

/// What the model answers, before 9.
impl Handed {
    fn day(&self) -> Result<&Day, Refusal> {
        self.day.as_ref().map_err(|r| *r)
    }

    /// The day once its badges under review have passed: 10, 8, 11, 20.
    fn reviewed(&self) -> Result<&Day, Refusal> {
        let day = self.day()?;
        model::check_review(self.n, self.review).map(|()| day)
    }

    fn cores(&self) -> Result<&Cores, Refusal> {
        self.reviewed().map(|day| self.cores.get_or_init(|| Cores::of(day, self.review)))
    }

    /// Write: 10, 8, 11, 15.
    pub fn log(&self) -> Result<Vec<u8>, Refusal> {
        let runs = self.day()?.runs();
        if runs.len() > 8000 { Err((15, 0)) } else { Ok(model::log_bytes(self.n as u8, self.ticks as u8, &runs)) }
    }

    /// Trace: 10, 8, 11, 22.
    pub fn traced(&self, index: usize, start: usize) -> Result<Vec<u8>, Refusal> {
        let day = self.day()?;
        model::check_start(day, index, start).map(|()| model::trace(day, index, start))
    }

    /// Core numbers: 10, 8, 11, 20, 12.
    pub fn numbers(&self, first: usize, last: usize) -> Result<Vec<u8>, Refusal> {
        let day = self.reviewed()?;
        if first > last || last >= self.ticks { Err((12, 0)) } else { Ok(Graph::throughout(day, first, last).core_numbers(self.review)) }
    }

    /// Report: 10, 8, 11, 20, 17.
    pub fn groups(&self, least: Least) -> Result<Vec<u8>, Refusal> {
        let cores = self.cores()?;
        model::check_least(least)?;
        let groups = self.groups.get_or_init(|| cores.groups());
        Ok(model::report_bytes(self.n, self.ticks, &model::kept(groups, least)))
    }

    /// Plan: 10, 8, 11, 20, 13, 21, 14.
    pub fn parts(&self, query: u128, parts: usize) -> Result<Vec<u8>, Refusal> {
        let cores = self.cores()?;
        model::check_query(self.n, self.review, query)?;
        if parts == 0 || parts > self.ticks {
            return Err((14, 0));
        }
        let ends = cores.ends(query, parts);
        if self.ticks <= 10 {
            assert_eq!(Some(&ends), cores.all_best(query, parts).iter().min());
        }
        Ok(model::plan_bytes(self.n, self.ticks, query, &cores.parts(query, &ends)))
    }
}
