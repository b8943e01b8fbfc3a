//! Days of up to 64 badges have the answers that they had when a set of badges was one word: the second implementation as it was then (`model64`)
//! beside the one of today, and the calls beside both. Bytes and refusals are the same; of the two words of a set the lower is the word that it was,
//! and the upper is 0; twice as many words are lent.

use crate::model;
use crate::model64::{self, Cores, Day, Graph, Least, Refusal};
use crate::support::calls::{day_of, join, read, tidy};
use crate::support::days::random_day;
use crate::support::handed::Handed;
use crate::support::logs::{damage, random_log};
use crate::support::random::Random;
use crate::support::receivers::{damage_one, end_to_end, random_receivers, resize_one};
use crate::support::seen::all_seen;
use crate::support::sets::{random_query, random_review};
use crate::support::teams::random_teams;
use crate::thresholds::random_least;

/// Two words for each that there was.
fn widened(words: &[u64]) -> Vec<u64> {
    words.iter().flat_map(|word| [*word, 0]).collect()
}

/// Whether a log that lies in front of these bytes had another answer: more than 64 badges were refused.
fn was_refused(log: &[u8]) -> bool {
    log.starts_with(b"BH") && log.get(2).is_some_and(|n| (65..=128).contains(n))
}

/// The day of a log and the number of its contact records, with so many words lent.
fn day_before(log: &[u8], lent: usize) -> Result<(Day, usize), Refusal> {
    let judged = model64::judge(log)?;
    if lent < judged.0.n * judged.0.ticks { Err((8, 0)) } else { Ok(judged) }
}

fn compare_log(log: &[u8], lent: usize, room: usize) {
    let before = day_before(log, lent);
    let (answer, words) = match &before {
        Ok((day, contacts)) => (Ok((day.n, day.ticks, *contacts)), widened(&day.words())),
        Err(refusal) => (Err(*refusal), Vec::new()),
    };
    assert_eq!(day_of(log, 2 * lent).map_or(Vec::new(), |(day, _)| day.words()), words);
    assert_eq!(read(log, 2 * lent), answer);
    assert_eq!(read(log, 2 * lent + 1), answer);
    let tidied = before.map(|(day, _)| model64::log_bytes(day.n as u8, day.ticks as u8, &day.runs()));
    assert_eq!(tidy(log, 2 * lent, room), tidied.and_then(|log| model::delivered(log, room)));
}

#[test]
fn logs() {
    let mut random = Random(121);
    for i in 0..20_000 {
        let (most, long) = if i % 50 == 0 { (64, 200) } else { (6, 12) };
        let (n, ticks, count) = (1 + random.below(most), 1 + random.below(most), random.below(long));
        let mut log = random_log(&mut random, n, ticks, count);
        if random.below(2) == 0 {
            damage(&mut random, &mut log);
        }
        if !was_refused(&log) {
            let (lent, room) = (n * ticks + random.below(3) - random.below(2), log.len() + random.below(40) - random.below(log.len() + 1));
            compare_log(&log, lent, room);
        }
    }
    all_seen("read", &[1, 2, 3, 4, 6, 7, 8]);
    all_seen("tidy", &[1, 2, 3, 4, 6, 7, 8, 9]);
}

#[test]
fn receivers() {
    let mut random = Random(122);
    for i in 0..6000 {
        let most = if i % 50 == 0 { 63 } else { 6 };
        let (n, ticks) = (1 + random.below(most), 1 + random.below(most));
        let mut logs = random_receivers(&mut random, n, ticks, 500);
        let quorum = if random.below(16) == 0 { random.below(6) } else { 1 + random.below(logs.len()) };
        if random.below(8) == 0 {
            resize_one(&mut random, &mut logs);
        }
        if random.below(3) == 0 {
            damage_one(&mut random, &mut logs);
        }
        if logs.iter().any(|log| was_refused(log)) {
            continue;
        }
        let (bytes, lengths) = end_to_end(&logs);
        let (lent, work) = (n * ticks + random.below(3) - random.below(2), logs.len() * n * ticks + random.below(3));
        let before = model64::join(&bytes, &lengths, quorum, lent, work).map(|day| (day.n, day.ticks, widened(&day.words())));
        assert_eq!(join(&bytes, &lengths, quorum, 2 * lent, 2 * work), before);
    }
    all_seen("join", &[1, 2, 3, 4, 6, 7, 8, 18, 19]);
}

/// What the calls on words answered, before 9: words that were handed over with n, T and badges under review.
struct Before {
    n: usize,
    ticks: usize,
    review: u64,
    day: Result<Day, Refusal>,
}

impl Before {
    fn day(&self) -> Result<&Day, Refusal> {
        self.day.as_ref().map_err(|refusal| *refusal)
    }

    fn reviewed(&self) -> Result<&Day, Refusal> {
        let day = self.day()?;
        model64::check_review(self.n, self.review).map(|()| day)
    }

    fn log(&self) -> Result<Vec<u8>, Refusal> {
        let runs = self.day()?.runs();
        if runs.len() > 8000 { Err((15, 0)) } else { Ok(model64::log_bytes(self.n as u8, self.ticks as u8, &runs)) }
    }

    fn traced(&self, index: usize, start: usize) -> Result<Vec<u8>, Refusal> {
        let day = self.day()?;
        model64::check_start(day, index, start).map(|()| model64::trace(day, index, start))
    }

    fn numbers(&self, first: usize, last: usize) -> Result<Vec<u8>, Refusal> {
        let day = self.reviewed()?;
        if first > last || last >= self.ticks { Err((12, 0)) } else { Ok(Graph::throughout(day, first, last).core_numbers(self.review)) }
    }

    fn groups(&self, cores: Option<&Cores>, least: Least) -> Result<Vec<u8>, Refusal> {
        self.reviewed()?;
        model64::check_least(least)?;
        let groups = model64::kept(&cores.expect("cores").groups(), least);
        Ok(model64::report_bytes(self.n, self.ticks, &groups))
    }

    fn parts(&self, cores: Option<&Cores>, query: u64, parts: usize) -> Result<Vec<u8>, Refusal> {
        self.reviewed()?;
        model64::check_query(self.n, self.review, query)?;
        if parts == 0 || parts > self.ticks {
            return Err((14, 0));
        }
        let cores = cores.expect("cores");
        Ok(model64::plan_bytes(self.n, self.ticks, query, &cores.parts(query, &cores.ends(query, parts))))
    }
}

/// Whether a least order or least number of members had another answer: more than 63 and 64 were refused.
fn were_refused([_, order, members]: Least) -> bool {
    (64..=127).contains(&order) || (65..=128).contains(&members)
}

/// Every call on words, each into a buffer of the exact length and into one that is a byte too short: the words of a day of up to 64 badges, or of
/// none.
fn compare_words(random: &mut Random, words: &[u64], n: usize, ticks: usize, review: u64) {
    let (day, after) = (model64::check(words, n, ticks), Handed::reviewing(&widened(words), n, ticks, review.into()));
    let before = Before { n, ticks, review, day };
    let cores = before.reviewed().ok().map(|day| Cores::of(day, review));
    let same = |answer: Result<Vec<u8>, Refusal>, call: &dyn Fn(usize) -> Result<Vec<u8>, Refusal>| {
        let len = answer.as_ref().map_or(100, Vec::len);
        assert_eq!(call(len), answer);
        assert_eq!(call(len - 1), answer.and(Err((9, 0))));
    };
    same(before.log(), &|room| after.write(room));
    let (index, start) = (random.below(n.min(64) + 1), random.below(ticks.min(96) + 1));
    same(before.traced(index, start), &|room| after.trace(index, start, room));
    let (first, last) = (random.below(ticks.min(96) + 1), random.below(ticks.min(96) + 1));
    same(before.numbers(first, last), &|room| after.core_numbers(first, last, room));
    same(before.groups(cores.as_ref(), model::PLAIN), &|room| after.report(room));
    let least = random_least(random, n, ticks);
    if !were_refused(least) {
        same(before.groups(cores.as_ref(), least), &|room| after.filtered(least, room));
    }
    let (query, parts) = (random_query(random, n, review.into()) as u64, random.below(ticks.min(96) + 2));
    same(before.parts(cores.as_ref(), query, parts), &|room| after.plan(query.into(), parts, room));
    if let Some(cores) = &cores {
        let after = model::Cores::of(&model::check(&widened(words), n, ticks).expect("a day"), review.into());
        assert_eq!(model::group_lines(n, ticks, &after.groups()), model64::group_lines(n, ticks, &cores.groups()));
    }
}

/// The words of a day when a set was one word.
fn narrow_words(day: &model::Day) -> Vec<u64> {
    day.words().into_iter().step_by(2).collect()
}

fn compare_random_day(random: &mut Random, n: usize, ticks: usize) {
    let (density, keep) = (random.below(101), random.below(101));
    let day = if random.below(2) == 0 { random_day(random, n, ticks, density, keep) } else { random_teams(random, n, ticks) };
    let mut words = narrow_words(&day);
    let (mut handed_n, mut handed_ticks) = (n, ticks);
    match random.below(12) {
        0 => {
            let at = random.below(words.len());
            words[at] ^= 1 << random.below(64);
        }
        1 => words.truncate(random.below(words.len())),
        2 => handed_n = [0, 129, usize::MAX][random.below(3)],
        3 => handed_ticks = [0, 97, usize::MAX][random.below(3)],
        _ => {}
    }
    let review = random_review(random, handed_n) as u64;
    compare_words(random, &words, handed_n, handed_ticks, review);
}

#[test]
fn days() {
    let mut random = Random(123);
    for i in 0..8000 {
        let (n, ticks) = if i % 50 == 0 { (1 + random.below(64), 1 + random.below(12)) } else { (1 + random.below(8), 1 + random.below(6)) };
        compare_random_day(&mut random, n, ticks);
    }
    all_seen("write", &[8, 9, 10, 11]);
    all_seen("core numbers", &[8, 9, 10, 11, 12, 20]);
    all_seen("report", &[8, 9, 10, 11, 17, 20]);
    all_seen("plan", &[8, 9, 10, 11, 13, 14, 20, 21]);
    all_seen("trace", &[8, 9, 10, 11, 22]);
}

#[test]
fn largest_days() {
    let mut random = Random(124);
    for day in [random_day(&mut random, 64, 96, 5, 80), random_teams(&mut random, 64, 96), random_day(&mut random, 64, 40, 90, 80)] {
        compare_words(&mut random, &narrow_words(&day), 64, day.ticks, u64::MAX);
    }
}
