//! The help of the tool and of each command, each with an example.

use crate::commands::ALL;
use crate::failure::Failure;
use crate::{Said, files};
use std::ffi::OsString;

/// `help`, and `help COMMAND`.
pub fn asked(rest: &[OsString]) -> Said {
    let Some(name) = rest.first() else { return Said::done(TOOL) };
    match ALL.iter().find(|command| name == command.name) {
        Some(command) => Said::done(command.help),
        None => Failure::usage(None, format!("no command {}", files::printable(name))).said(false),
    }
}

pub const TOOL: &str = "\
ward COMMAND [OPTIONS] FILE..
Who met whom on a ward: contact logs, groups, plans and exposures. Every answer
is that of a proved call; the tool reads files and shows what came back.

  list     the groups of a log
  same     whether two logs mean the same, and how they differ
  tidy     the tidy form of a log, the same for all logs that mean the same
  show     a log record by record, and where it is refused
  join     the logs of several receivers as one day
  numbers  core numbers of a span of ticks
  plan     the shift cut into parts around some badges
  trace    whom a badge can have reached, when and through whom
  chart    a picture of the day, in SVG
  import   a log from lines of text: seconds, name, name

`ward COMMAND --help` says more of a command. A FILE named - is standard input.
Status: 0 done, 1 refused or different, 2 wrong usage, or a file that cannot be
read or written.

Example:
  ward list examples/ward.log
";

pub const LIST: &str = "\
ward list [OPTIONS] LOG
Prints the groups of a log, a line each: those who stayed in contact with at
least so many others of the group, its order, throughout its ticks.

  --least-ticks N    only groups that last N ticks or more, 1 to 96
  --least-order N    only groups of order N or more, 1 to 127
  --least-members N  only groups of N members or more, 2 to 128
  --review BADGES    groups among these badges alone, as in 0-9,12
  --json             one JSON object

Example:
  ward list --least-ticks 3 --review 0-2,4 examples/ward.log
";

pub const SAME: &str = "\
ward same [--json] A B
Says whether two logs mean the same: the same badges, ticks and contacts, in
whatever order and pieces. If not, says how their sizes differ, and which pairs
were in contact in which ticks in one of them alone: the first ten of each, or
all of them in JSON. Status 0 where they mean the same, 1 where not.

Example:
  ward same examples/ward-east.log examples/ward-west.log
";

pub const TIDY: &str = "\
ward tidy [-o OUT] LOG
Makes the tidy form of a log: pairs in order, the smaller badge first, and one
record for each unbroken run of ticks. Prints its bytes, a record a line, each
explained.

  -o OUT    writes the bytes into a file instead, or to standard output as -

Example:
  ward tidy examples/ward.log -o tidy.log
";

pub const SHOW: &str = "\
ward show LOG
Prints a log as it is, record by record, with offsets; where it is refused, as
far as it is judged, with the refused record marked.

Example:
  ward show examples/ward.log
";

pub const JOIN: &str = "\
ward join --quorum Q [-o OUT] A B ..
Joins the logs of 2 to 4 receivers of one shift: a contact counts if at least Q
of them heard it. Prints the groups of the joined day.

  --quorum Q    1 to the number of logs
  -o OUT        writes the joined day's log into a file instead, or to standard
                output as -

Example:
  ward join --quorum 2 examples/ward-east.log examples/ward-west.log
";

pub const NUMBERS: &str = "\
ward numbers --span F-L [OPTIONS] LOG
Prints the core number of each badge on a span of ticks, a line each: the
largest order of a group on that span that it belongs to, 0 if it is in none.

  --span F-L        the first and the last tick, both counted, or one tick
  --review BADGES   cores among these badges alone, as in 0-9,12
  --json            one JSON object

Example:
  ward numbers --span 0-1 examples/ward.log
";

pub const PLAN: &str = "\
ward plan --parts H [OPTIONS] LOG
Cuts the shift into H parts around a query: in each the closest circle of
people that holds the query, with the greatest sum of scores. Prints the sum,
and the parts.

  --parts H         1 to the number of ticks
  --query BADGES    the badges that each part is around, as in 0-9,12; nobody in
                    particular without it
  --review BADGES   among these badges alone
  --json            one JSON object

Example:
  ward plan --query 1 --parts 3 examples/ward.log
";

pub const TRACE: &str = "\
ward trace --index I [OPTIONS] LOG
Prints whom badge I can have reached, by contacts in rising ticks: when first,
and from whom, in the order of ticks; who was never reached; and the tree of
who reached whom.

  --index I   the badge that it starts from
  --start S   the tick that it starts in, 0 without it
  --json      one JSON object, without the tree, which the sources say

Example:
  ward trace --index 0 --start 0 examples/ward.log
";

pub const CHART: &str = "\
ward chart [OPTIONS] LOG
Draws the groups of a day, from left to right by ticks, the highest orders
first, and below them how many contacts each tick has. Prints the picture, in
SVG.

  -o OUT                   writes it into a file instead
  --least-ticks N, --least-order N, --least-members N, --review BADGES
                           draws these groups alone, as `ward list` has them
  --plan --parts H         draws the parts of a plan, with --query and --review
                           as `ward plan` has them
  --trace --index I        draws whom a badge reaches, tick by tick, with
                           --start as `ward trace` has it

Example:
  ward chart examples/shift.log -o day.svg
";

pub const IMPORT: &str = "\
ward import [OPTIONS] CONTACTS
Makes a log from a text with a line for each contact: seconds, and two names,
as in SocioPatterns data; further words of a line, empty lines and lines that
begin with # are passed over. Names become badges in the order of first sight.
Prints the sizes, the names by badge, and the log, explained as by `ward tidy`.

  --tick N    so many seconds are a tick, 300 without it
  --from S    takes only what is at second S or later; tick 0 starts there, and
              without it at a multiple of the tick
  --to S      takes only what is before second S, where the last tick ends
  -o OUT      writes the log into a file instead, or to standard output as -,
              the names then to standard error

Example:
  ward import --tick 300 examples/contacts.txt -o contacts.log
";
