//! A made-up shift of eight hours on a ward of 40 badges, from a fixed seed: 0 to 7 are nurses, 8 to 11 doctors, 12 and 13 cleaning staff, 14 a porter,
//! 15 the physiotherapist, and 16 to 39 patients, three in each of eight rooms. What a receiver writes of it: pieces of meetings, in the order in
//! which they end, pairs from either side, and here and there a tick that it does not hear.

use super::random::Random;

const BADGES: usize = 40;
const TICKS: usize = 96;
const ROOMS: usize = 8;

/// Which pairs are in contact in which ticks: for each tick a set for each badge, bit v for badge v.
struct Shift {
    met: Vec<[u64; BADGES]>,
    random: Random,
}

impl Shift {
    /// All of these are together from a first to a last tick.
    fn gather(&mut self, people: &[usize], first: usize, last: usize) {
        for tick in self.met[first..=last.min(TICKS - 1)].iter_mut() {
            for &u in people {
                tick[u] |= people.iter().filter(|v| **v != u).fold(0, |set, v| set | 1 << v);
            }
        }
    }

    /// One of these is near each of the others, who are not near each other.
    fn visit(&mut self, visitor: usize, people: &[usize], first: usize, last: usize) {
        for person in people {
            self.gather(&[visitor, *person], first, last);
        }
    }

    /// A badge is out of the ward.
    fn away(&mut self, badge: usize, first: usize, last: usize) {
        for tick in &mut self.met[first..=last] {
            tick[badge] = 0;
            tick.iter_mut().for_each(|set| *set &= !(1 << badge));
        }
    }
}

fn patients(room: usize) -> Vec<usize> {
    (16 + 3 * room..19 + 3 * room).collect()
}

/// Who meets whom in the day's order.
fn shift() -> Shift {
    let mut shift = Shift { met: vec![[0; BADGES]; TICKS], random: Random(7) };
    let nurses: Vec<usize> = (0..8).collect();
    for room in 0..ROOMS {
        // neighbours talk from bed to bed; the nurse of the room looks in, and stays a tick or three
        let beds = patients(room);
        shift.gather(&beds[..2], 6 + room % 3, 90 - room);
        shift.gather(&beds[1..], 10 + room, 70 + 2 * room);
        for _ in 0..5 {
            let (first, stay) = (8 + shift.random.below(80), shift.random.below(3));
            shift.visit(room, &beds, first, first + stay);
        }
        // the ward round, two doctors and the nurse at each bed; then the room is cleaned
        let round = 18 + 3 * room;
        shift.gather(&[&beds[..], &[8, 9, room]].concat(), round, round + 2);
        shift.visit(12 + room % 2, &beds, 44 + 3 * (room / 2), 45 + 3 * (room / 2));
    }
    // one patient of every other room is taken to an examination, and brought back
    for room in (0..ROOMS).step_by(2) {
        let (patient, leaves) = (patients(room)[room / 2 % 3], 52 + 4 * room);
        shift.away(patient, leaves, leaves + 7);
        shift.gather(&[14, patient], leaves, leaves + 1);
        shift.gather(&[14, patient], leaves + 6, leaves + 7);
    }
    shift.gather(&[15, 18, 24, 27, 33, 39], 74, 79);
    shift.gather(&nurses, 0, 5);
    shift.gather(&nurses, 91, 95);
    shift.gather(&nurses[..4], 56, 61);
    shift.gather(&[&nurses[4..], &[12, 13]].concat(), 62, 67);
    shift.gather(&[8, 9, 10, 11, 2, 5], 46, 51);
    shift
}

/// The shift as a receiver writes it.
pub fn log() -> Vec<u8> {
    let Shift { met, mut random } = shift();
    let mut pieces = Vec::new();
    for u in 0..BADGES {
        for v in u + 1..BADGES {
            let heard: Vec<bool> = met.iter().map(|tick| tick[u] >> v & 1 == 1 && random.below(100) > 0).collect();
            pieces.extend(cut(&heard, &mut random).into_iter().map(|(first, last)| (last, first, u, v)));
        }
    }
    pieces.sort();
    let mut log = vec![b'B', b'H', BADGES as u8, TICKS as u8];
    for (last, first, u, v) in &pieces {
        let (a, b) = if random.below(2) == 0 { (u, v) } else { (v, u) };
        log.extend([b'C', b'T', *a as u8, *b as u8, *first as u8, *last as u8]);
    }
    log.extend(b"ED");
    log.extend((pieces.len() as u32).to_le_bytes());
    log
}

/// The runs of the ticks that were heard, each cut now and then.
fn cut(heard: &[bool], random: &mut Random) -> Vec<(usize, usize)> {
    let mut pieces: Vec<(usize, usize)> = Vec::new();
    for tick in (0..heard.len()).filter(|tick| heard[*tick]) {
        match pieces.last_mut() {
            Some((_, last)) if *last + 1 == tick && random.below(12) > 0 => *last = tick,
            _ => pieces.push((tick, tick)),
        }
    }
    pieces
}
