//! Days of full size, of 64 badges, of 128 and about that, in 96 ticks, whose answers a rule gives; and days without contacts.

use crate::model::{self, full, plan_bytes, record_size, report_bytes};
use crate::support::days::{core_with_one_away, day_by, one_away};
use crate::support::handed::Handed;
use crate::support::lent::Lent;

/// The spans of the first cutting of all: all parts but the last have one tick.
fn first_cutting(ticks: usize, h: usize) -> impl Iterator<Item = (usize, usize)> {
    (0..h).map(move |i| (i, if i + 1 == h { ticks - 1 } else { i }))
}

/// One group of order n - 1, and around all badges every cutting has the greatest sum: so the plan is the first of all.
#[test]
fn all_in_contact() {
    for n in [63, 64, 65, 127, 128] {
        let (words, everyone) = (day_by(n, 96, |_, _, _| true).words(), full(n));
        for ticks in [1, 2, 96] {
            let (day, report) = (Handed::new(&words, n, ticks), report_bytes(n, ticks, &[(n - 1, 0, ticks - 1, everyone)]));
            assert_eq!(report.len(), 10 + record_size(n));
            assert_eq!(day.report(report.len()), Ok(report.clone()));
            assert_eq!(day.report(report.len() - 1), Err((9, 0)));
            for h in (1..=ticks).step_by(38) {
                let parts: Vec<_> = first_cutting(ticks, h).map(|(first, last)| (n - 1, first, last, everyone)).collect();
                assert_eq!(day.plan(everyone, h, ward::PLAN_BYTES), Ok(plan_bytes(n, ticks, everyone, &parts)));
            }
        }
    }
}

/// The longest plans: a part for each tick.
#[test]
fn longest_plans() {
    for (n, len) in [(64, 1267), (65, 2043), (128, 2043)] {
        let day = Handed::new(&day_by(n, 96, |t, u, v| (u, v) == (t % (n - 1), n - 1)).words(), n, 96);
        let (query, parts) = (1 << (n - 1), (0..96).map(|t| (1, t, t, 1 << (t % (n - 1)) | 1 << (n - 1))));
        let plan = plan_bytes(n, 96, query, &parts.collect::<Vec<_>>());
        assert_eq!(plan.len(), len);
        assert_eq!(day.plan(query, 96, len), Ok(plan.clone()));
        assert_eq!(day.plan(query, 96, ward::PLAN_BYTES), Ok(plan));
        assert_eq!(day.plan(query, 96, len - 1), Err((9, 0)));
    }
}

/// One badge away in each tick of 64: a group on each span of at most 62 ticks, 97·62 - (1 + .. + 62) = 4,061 in all, since every longer span has a
/// smaller order. Of 128 there is a group on every span, 4,656, the most cores that a report can show. In a cutting of greatest sum one part is as
/// long as can be, and all others have one tick and order n - 2: in the first it is the last one.
#[test]
fn one_badge_away_in_each_tick() {
    for (n, groups) in [(64, 4061), (128, 4656)] {
        let day = Handed::new(&one_away(n).words(), n, 96);
        let spans = (0..96).flat_map(|first| (first..96).map(move |last| core_with_one_away(n, first, last)));
        let report = report_bytes(n, 96, &spans.filter(|core| core.0 > 0).collect::<Vec<_>>());
        assert_eq!(report.len(), 10 + record_size(n) * groups);
        for room in [report.len() + 200, report.len()] {
            assert_eq!(day.report(room), Ok(report.clone()));
        }
        assert_eq!(day.report(report.len() - 1), Err((9, 0)));

        for h in (1..=96).step_by(19) {
            let parts: Vec<_> = first_cutting(96, h).map(|(first, last)| core_with_one_away(n, first, last)).collect();
            let longest = (n - 1).saturating_sub(97 - h);
            assert_eq!(parts.iter().map(|part| part.0).sum::<usize>(), (n - 2) * (h - 1) + longest);
            assert_eq!(day.plan(0, h, ward::PLAN_BYTES), Ok(plan_bytes(n, 96, 0, &parts)));
        }
    }
}

/// The last badge with another badge in each tick, badge t mod n - 1 in tick t: a group of order 1 in each tick, and none on two.
#[test]
fn another_partner_in_each_tick() {
    for n in [64, 65, 128] {
        let day = Handed::new(&day_by(n, 96, |t, u, v| (u, v) == (t % (n - 1), n - 1)).words(), n, 96);
        let groups: Vec<_> = (0..96).map(|t| (1, t, t, 1 << (t % (n - 1)) | 1 << (n - 1))).collect();
        assert_eq!(day.report(10 + record_size(n) * 96), Ok(report_bytes(n, 96, &groups)));
    }
}

/// A word too few; a last tick of T; a number of parts above T; an index of n and a start of T; a byte too few; and in the last tick a bit without
/// its mirror.
#[test]
fn refusals() {
    for n in [64, 128] {
        let (last, mut words, plan) = (1 << (n - 1), vec![0; 2 * n * 96], 3 * record_size(n) + 6);
        let few = Handed::new(&words[1..], n, 96);
        assert_eq!(few.core_numbers(0, 95, n), Err((8, 0)));
        assert_eq!(few.report(9), Err((8, 0)));
        assert_eq!(few.plan(last, 2, plan - 1), Err((8, 0)));
        assert_eq!(few.trace(n - 1, 95, 2 * n), Err((8, 0)));
        let empty = Handed::new(&words, n, 96);
        assert_eq!(empty.core_numbers(0, 96, n), Err((12, 0)));
        assert_eq!(empty.core_numbers(0, 95, n - 1), Err((9, 0)));
        assert_eq!(empty.report(9), Err((9, 0)));
        assert_eq!(empty.plan(last, 97, 9), Err((14, 0)));
        assert_eq!(empty.plan(last, 2, plan - 1), Err((9, 0)));
        assert_eq!(empty.plan(last, 2, plan).map(|plan| plan.len()), Ok(plan));
        assert_eq!(empty.trace(n, 95, 2 * n - 1), Err((22, 0)));
        assert_eq!(empty.trace(n - 1, 96, 2 * n - 1), Err((22, 0)));
        assert_eq!(empty.trace(n - 1, 95, 2 * n - 1), Err((9, 0)));
        for place in [words.len() - 2, words.len() - 1] {
            words[place] = 1;
            let broken = Handed::new(&words, n, 96);
            assert_eq!(broken.core_numbers(0, 95, n - 1), Err((11, 0)));
            assert_eq!(broken.report(44), Err((11, 0)));
            assert_eq!(broken.plan(last, 2, plan - 1), Err((11, 0)));
            assert_eq!(broken.trace(n, 96, 2 * n - 1), Err((11, 0)));
            words[place] = 0;
        }
    }
}

/// Days without contacts of every number of badges and many numbers of ticks, with words after them: all core numbers are 0, the report has no group,
/// the tidy log no contact, and the last badge reaches nobody from the last tick on.
#[test]
fn without_contacts() {
    let words = vec![0; ward::WORDS];
    for n in 1..=128 {
        for ticks in (1..=96).filter(|ticks| [1, 2, 95, 96].contains(ticks) || (ticks + n) % 5 == 0) {
            let (mut numbers, mut report, mut log, mut trace) = (Lent::room(n), Lent::room(10), Lent::room(10), Lent::room(2 * n));
            assert_eq!(ward::core_numbers(&words, n, ticks, full(n), 0, ticks - 1, numbers.slice()), Ok(n));
            assert_eq!(ward::report(&words, n, ticks, full(n), ward::Thresholds::default(), report.slice()), Ok(10));
            assert_eq!(ward::write(&words, n, ticks, log.slice()), Ok(10));
            assert_eq!(ward::trace(&words, n, ticks, n - 1, ticks - 1, trace.slice()), Ok(2 * n));
            numbers.holds(&vec![0; n]);
            report.holds(&report_bytes(n, ticks, &[]));
            log.holds(&model::log_bytes(n as u8, ticks as u8, &[]));
            trace.holds(&[vec![255; n - 1], vec![ticks as u8 - 1], vec![255; n]].concat());
        }
        let ticks = 1 + 95 * (n % 2);
        let day = Handed::new(&words, n, ticks);
        assert_eq!(day.core_numbers(0, ticks - 1, n), Ok(vec![0; n]));
        assert_eq!(day.report(10), Ok(report_bytes(n, ticks, &[])));
    }
}
