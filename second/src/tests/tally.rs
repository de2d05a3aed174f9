//! A comparison that never tried something says so.

use crate::gateway::Event;
use crate::programs::replay::Replay;
use crate::programs::stream;
use crate::tally::{Tally, Thing};
use crate::word;

/// What is missing after a script.
pub fn missing(script: &str) -> Vec<String> {
    let mut replay = Replay::fresh();
    stream::run(&mut replay, script.as_bytes());
    replay.tally.missing()
}

#[test]
fn an_empty_tally_misses_all_that_its_table_names() {
    let tally = Tally::default();
    let named = tally.table().lines().count();
    // Of those the short tail alone isn't asked for.
    assert_eq!(tally.missing().len(), named - 1);
}

#[test]
fn what_was_counted_is_not_missing_and_adds_up() {
    let (mut sum, mut tally) = (Tally::default(), Tally::default());
    tally.event(&Event::Refused(15));
    tally.count_many(Thing::Tick, 3);
    sum.add(&tally);
    sum.add(&tally);
    assert_eq!(sum.of(Thing::Refusal(15)), 2);
    assert_eq!(sum.of(Thing::Tick), 6);
    assert!(!sum.missing().contains(&"refusal 15".to_string()));
    assert!(sum.missing().contains(&"refusal 14".to_string()));
}

#[test]
fn each_of_the_15_spare_values_is_asked_for_on_each_side() {
    let script = |source: &str, last: u32| -> String {
        let frames = (1..=last).map(|spare| word::with_even_parity(spare << 24));
        frames
            .map(|frame| format!("{source} 1 {frame:08X}\n"))
            .collect()
    };
    for source in ["thermostat", "boiler"] {
        let name = format!("refusal 16 for a {source} frame: spare values");
        let lack = format!("{name}: 15 (seen: 14)");
        assert!(missing(&script(source, 14)).contains(&lack));
        let missing = missing(&script(source, 15));
        assert!(!missing.iter().any(|lack| lack.starts_with(&name)));
    }
}

#[test]
fn a_spoilt_answer_counts_as_one_and_so_does_the_good_one_behind_it() {
    let names = [
        "16 for a boiler frame, else an order's outcome",
        "an order answered, after 16 for an answer",
    ];
    let has = |script: &str| names.map(|name| !missing(script).contains(&name.to_string()));
    let order = "modbus 01030019000155CD\ntick 184\n";
    let (spoilt, good) = ("boiler 1 C1193280\n", "boiler 1 40193280\n");
    assert_eq!(has(&format!("{order}{good}")), [false, false]);
    assert_eq!(has(&format!("{order}{spoilt}")), [true, false]);
    assert_eq!(has(&format!("{order}{spoilt}{good}")), [true, true]);
    // In the next talk it is forgotten.
    let ended = format!("{order}{spoilt}tick 791\n");
    assert_eq!(has(&format!("{ended}{order}{good}")), [true, false]);
}

/// The counts of Ask 2 that a script brings.
fn status_counts(script: &str) -> Vec<String> {
    let missing = missing(script);
    let seen = |name: &String| !missing.contains(name);
    let named = |name: &String| name.contains("status") || name.starts_with("04 at once");
    let all = Tally::default().missing();
    all.into_iter().filter(named).filter(seen).collect()
}

const NONE: &str = ": no status of any id ever came on this line";

/// What comes before id 0's status is asked for on line 1, and the grounds for 04 then.
#[rustfmt::skip]
const GROUNDS: [(&str, &[&str]); 9] = [
    ("", &[NONE]),
    ("thermostat 1 00000312\n", &[": the status is held and not yet out"]),
    ("thermostat 1 00000312\nthermostat 1 80190000\n", &[": the status was replaced while held"]),
    ("thermostat 1 00460155\ntick 100\n", &[" for id 0: id 70's status went out"]),
    ("thermostat 2 00000312\ntick 100\n", &[NONE, ": this id's status went out on another line"]),
    ("thermostat 1 90000300\ntick 100\n", &[NONE, ": the thermostat's WRITE-DATA went out"]),
    ("thermostat 1 A0000300\ntick 100\n", &[NONE, ": the thermostat's INVALID-DATA went out"]),
    ("modbus 0141000003000000D087\ntick 975\n", &[NONE, ": an order's READ-DATA by 41 went out"]),
    ("modbus 01170000000100000001020300545E\ntick 975\n", &[NONE, ": an order's READ-DATA by 17 went out"]),
];

#[test]
fn each_ground_for_04_is_told_apart() {
    let named = |ground: &&str| format!("04 at once{ground}");
    for (before, grounds) in GROUNDS {
        let mut counts = status_counts(&format!("{before}modbus 010300000001840A\n"));
        counts.retain(|name| name.starts_with("04 at once"));
        assert_eq!(counts, grounds.iter().map(named).collect::<Vec<_>>());
    }
    assert_eq!(status_counts("modbus 01030019000155CD\n"), [""; 0]);
}

#[test]
fn which_status_was_sent_is_told_apart() {
    let older = "thermostat 1 00000312\ntick 975\n";
    let newer = "thermostat 1 00000701\n";
    let asks = "modbus 010300000001840A\n";
    let other = "modbus 01030019000155CD\ntick 975\n";
    let counts = |script: String| {
        let mut counts = status_counts(&script);
        counts.retain(|name| name.starts_with("status sent: "));
        counts
    };
    let plain = [
        "low byte 0, the thermostat's wasn't",
        "high byte not 00",
        "03 on id 0",
    ];
    let named = |name: &str| format!("status sent: {name}");
    let alone = counts(format!("{older}{asks}tick 100\n"));
    assert_eq!(alone, plain.map(named));
    let held = counts(format!("{older}{newer}{asks}tick 100\n"));
    assert_eq!(held[0], named("not the newer one that is held"));
    assert_eq!(held[1..], alone);
    let between = counts(format!("{older}{other}{newer}{asks}tick 1075\n"));
    assert_eq!(between[0], named("a newer one than at acceptance"));
    assert_eq!(between[1..], alone);
    // What was only accepted hasn't been sent.
    assert_eq!(counts(format!("{older}{asks}tick 99\n")), [""; 0]);
}
