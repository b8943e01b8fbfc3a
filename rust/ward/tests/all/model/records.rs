//! Reports and plans in bytes, in both forms.

/// A record of a report or a plan: order or score, first tick, last tick, members. In a report the members are those of one circle.
pub type Record = (usize, usize, usize, u128);

/// "above that marks RW, GW, PW and QW replace RH, GR, PH and PT, with 16-byte sets": the form of the reports and plans of days of n badges.
struct Form {
    report: [u8; 2],
    group: [u8; 2],
    plan: [u8; 2],
    part: [u8; 2],
    set_bytes: usize,
}

const NARROW: Form = Form { report: *b"RH", group: *b"GR", plan: *b"PH", part: *b"PT", set_bytes: 8 };
const WIDE: Form = Form { report: *b"RW", group: *b"GW", plan: *b"PW", part: *b"QW", set_bytes: 16 };

impl Form {
    fn of(n: usize) -> Form {
        if n <= 64 { NARROW } else { WIDE }
    }

    /// A set in bytes, bit u for badge u, lower badges first.
    fn set(&self, set: u128) -> Vec<u8> {
        (0..self.set_bytes).map(|place| (set >> (8 * place) & 255) as u8).collect()
    }

    /// Records in bytes, after a header and before an end with their number.
    fn records(&self, header: &[u8], mark: [u8; 2], records: &[Record]) -> Vec<u8> {
        let mut bytes = header.to_vec();
        for &(order, first, last, members) in records {
            bytes.extend(mark);
            bytes.extend([order as u8, first as u8, last as u8]);
            bytes.extend(self.set(members));
        }
        bytes.extend(b"ED");
        bytes.extend((records.len() as u32).to_le_bytes());
        bytes
    }
}

/// How many bytes a record of a report or a plan takes.
pub fn record_size(n: usize) -> usize {
    5 + Form::of(n).set_bytes
}

pub fn report_bytes(n: usize, ticks: usize, groups: &[Record]) -> Vec<u8> {
    let form = Form::of(n);
    form.records(&[&form.report[..], &[n as u8, ticks as u8]].concat(), form.group, groups)
}

pub fn plan_bytes(n: usize, ticks: usize, query: u128, parts: &[Record]) -> Vec<u8> {
    let form = Form::of(n);
    let header = [&form.plan[..], &[n as u8, ticks as u8, parts.len() as u8], &form.set(query)].concat();
    form.records(&header, form.part, parts)
}
