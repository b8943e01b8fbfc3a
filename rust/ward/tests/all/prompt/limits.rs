//! Arguments at their limits: the largest that is taken, and the first that is refused.

use crate::model;
use crate::support::prompt::{Folder, ward};

const LOG: &str = "examples/ward.log";
const MOST: &str = "18446744073709551615";

/// Each of these values is taken, or refused by a number.
fn tried(arguments: &[&str], option: &str, taken: &[&str], refused: &[&str], number: u8) {
    let with = |value: &&str| ward(&[&arguments[..1], &[option, value], &arguments[1..]].concat());
    for value in taken {
        assert_eq!(with(value).status, 0, "{option} {value}");
    }
    for value in refused {
        with(value).refused((number, 0));
    }
}

/// examples/ward.log has 5 badges and 4 ticks.
#[test]
fn numbers_at_their_limits() {
    tried(&["list", LOG], "--least-ticks", &["1", "96", "096"], &["0", "97", MOST], 17);
    tried(&["list", LOG], "--least-order", &["1", "127"], &["0", "128", MOST], 17);
    tried(&["list", LOG], "--least-members", &["2", "128"], &["0", "1", "129", MOST], 17);
    tried(&["numbers", LOG], "--span", &["0", "3", "0-3", "3-3"], &["4", "0-4", "3-2", "18446744073709551615-0"], 12);
    tried(&["plan", LOG], "--parts", &["1", "4"], &["0", "5", MOST], 14);
    tried(&["plan", "--parts", "1", LOG], "--query", &["0", "4", "0-4"], &["5", "127", "0-127"], 13);
    tried(&["plan", "--parts", "1", "--review", "0-3", LOG], "--query", &["0-3"], &["4", "0-4"], 21);
    tried(&["trace", LOG], "--index", &["0", "4"], &["5", "255", MOST], 22);
    tried(&["trace", "--index", "0", LOG], "--start", &["0", "3"], &["4", "255", MOST], 22);
    tried(&["chart", LOG], "--least-ticks", &["1", "96"], &["0", "97"], 17);
    tried(&["chart", "--plan", LOG], "--parts", &["1", "4"], &["0", "5"], 14);
    tried(&["chart", "--trace", LOG], "--index", &["0", "4"], &["5"], 22);
    for arguments in [&["list", LOG][..], &["numbers", "--span", "0", LOG], &["plan", "--parts", "1", LOG], &["chart", LOG]] {
        tried(arguments, "--review", &["0", "4", "0-4", "4,3,3-4,0"], &["5", "127", "0-5", "0-127"], 20);
    }
}

#[test]
fn receivers_at_their_limits() {
    let [east, west] = ["examples/ward-east.log", "examples/ward-west.log"];
    for count in 1..=6 {
        let logs = [east, west, east, west, east, west];
        for quorum in 0..=count + 1 {
            let ran = ward(&[&["join", "--quorum", &quorum.to_string()], &logs[..count]].concat());
            match (2..=4).contains(&count) && (1..=count).contains(&quorum) {
                true => assert_eq!(ran.status, 0, "{}", ran.err),
                false => ran.refused((18, 0)),
            }
        }
    }
    ward(&["join", "--quorum", MOST, east, west]).refused((18, 0));
}

/// Days of the largest size, and one badge or tick more.
#[test]
fn sizes_at_their_limits() {
    let folder = Folder::new();
    let log = |n: u8, ticks: u8| folder.file(&format!("{n}-{ticks}"), &model::log_bytes(n, ticks, &[[n - 1, 0, 0, ticks - 1]]));
    let listing = "badges 128 ticks 96 groups 1\norder 1 ticks 0 to 95 badges 0 127\n";
    assert_eq!(ward(&["list", &log(128, 96)]).done(), listing);
    assert_eq!(ward(&["list", "--review", "0-127", &log(128, 96)]).done(), listing);
    ward(&["list", &log(129, 96)]).refused((3, 0));
    ward(&["list", &log(128, 97)]).refused((3, 0));
    assert!(ward(&["numbers", "--span", "0-95", &log(128, 96)]).done().ends_with("\nbadge 126 core number 0\nbadge 127 core number 1\n"));
    assert!(ward(&["plan", "--query", "127", "--parts", "96", &log(128, 96)]).done().starts_with("badges 128 ticks 96 parts 96 sum 96 around 127\n"));
    assert!(ward(&["trace", "--index", "127", "--start", "95", &log(128, 96)]).done().contains("badge 0 in tick 95 from badge 127\n"));
}
