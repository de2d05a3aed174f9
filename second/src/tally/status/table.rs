//! The counts of the status exchange by name; each must have been seen.

use super::Status;
use crate::modbus::exceptions;
use crate::status::IDS;
use crate::tally::entry::Entry;
use crate::tally::grounds::Ground;
use crate::tally::history::{Other, Talk};
use crate::tally::{Tally, Thing};

/// The functions that ask for a status, and those that send a READ-DATA with a value of their own.
const ASKING: [u8; 3] = [0x03, 0x04, 0x17];
const WITH_VALUE: [(u8, &str); 2] = [(0x17, "17 1 and 1"), (0x41, "41 message 0000")];

/// How a status question ends.
const OUTCOMES: [(&str, Option<u8>); 4] = [
    ("a normal reply", None),
    ("02", Some(exceptions::ILLEGAL_ADDRESS)),
    ("04", Some(exceptions::DEVICE_FAILURE)),
    ("0B", Some(exceptions::NO_ANSWER)),
];

#[rustfmt::skip]
const NAMES: [(&str, Status); 32] = [
    ("04 at once: no status of any id ever came on this line", Status::Unknown(Ground::NoneCame)),
    ("04 at once: the status is held and not yet out", Status::Unknown(Ground::Held)),
    ("04 at once: the status was replaced while held", Status::Unknown(Ground::Replaced)),
    ("04 at once for id 0: id 70's status went out", Status::Unknown(Ground::OtherId(0))),
    ("04 at once for id 70: id 0's status went out", Status::Unknown(Ground::OtherId(70))),
    ("04 at once: this id's status went out on another line", Status::Unknown(Ground::OtherLine)),
    ("04 at once: the thermostat's WRITE-DATA went out", Status::Unknown(Ground::Other(Other::Write))),
    ("04 at once: the thermostat's INVALID-DATA went out", Status::Unknown(Ground::Other(Other::Invalid))),
    ("04 at once: an order's READ-DATA by 41 went out", Status::Unknown(Ground::Other(Other::By41))),
    ("04 at once: an order's READ-DATA by 17 went out", Status::Unknown(Ground::Other(Other::By17))),
    ("04 at once, else 06: an order on the same line", Status::Busy(exceptions::DEVICE_FAILURE, true)),
    ("04 at once, else 06: an order on another line", Status::Busy(exceptions::DEVICE_FAILURE, false)),
    ("06, the status known: an order on the same line", Status::Busy(exceptions::DEVICE_BUSY, true)),
    ("06, the status known: an order on another line", Status::Busy(exceptions::DEVICE_BUSY, false)),
    ("accepted, the status' talk under way", Status::Accepted(Talk::UnderWay)),
    ("accepted, the status' talk without an answer", Status::Accepted(Talk::NoAnswer)),
    ("accepted, the status' answer passed on", Status::Accepted(Talk::Passed)),
    ("accepted, the status' answer dropped", Status::Accepted(Talk::Dropped)),
    ("accepted, the first status' talk under way", Status::AcceptedFirst(Talk::UnderWay)),
    ("accepted, the first status' talk without an answer", Status::AcceptedFirst(Talk::NoAnswer)),
    ("status sent: a newer one than at acceptance", Status::Sent(Ground::Newer)),
    ("status sent: not the newer one that is held", Status::Sent(Ground::Held)),
    ("status sent: id 0's, id 70's has another byte", Status::Sent(Ground::OtherId(0))),
    ("status sent: id 70's, id 0's has another byte", Status::Sent(Ground::OtherId(70))),
    ("status sent: this line's, another's has another byte", Status::Sent(Ground::OtherLine)),
    ("status sent: not a later WRITE-DATA's other byte", Status::Sent(Ground::Other(Other::Write))),
    ("status sent: not a later INVALID-DATA's other byte", Status::Sent(Ground::Other(Other::Invalid))),
    ("status sent: not a later 41's other byte", Status::Sent(Ground::Other(Other::By41))),
    ("status sent: not a later 17's other byte", Status::Sent(Ground::Other(Other::By17))),
    ("status sent: low byte 0, the thermostat's wasn't", Status::Sent(Ground::LowByte)),
    ("status sent: high byte 00, value 0000", Status::Sent(Ground::High00)),
    ("status sent: high byte not 00", Status::Sent(Ground::HighNot00)),
];

/// The counts for each function and id.
fn by_function() -> Vec<(String, Status)> {
    let mut all = Vec::new();
    for (function, id) in pairs(&ASKING) {
        let name = format!("{function:02X} on id {id}");
        let page = format!("{name}, offset's high byte not 0");
        all.push((
            format!("{page}: 04 at once"),
            Status::Page(function, id, false),
        ));
        all.push((
            format!("{page}: accepted"),
            Status::Page(function, id, true),
        ));
        all.push((format!("status sent: {name}"), Status::SentBy(function, id)));
    }
    for function in ASKING {
        for (name, code) in OUTCOMES {
            let name = format!("outcome of a status question by {function:02X}: {name}");
            all.push((name, Status::Outcome(function, code)));
        }
    }
    for ((function, row), id) in pairs(&WITH_VALUE) {
        let name = format!("{row} on id {id} sends its own value");
        all.push((
            format!("{name}, no status known"),
            Status::WithValue(function, id, false),
        ));
        all.push((
            format!("{name}, a status of another byte known"),
            Status::WithValue(function, id, true),
        ));
    }
    all
}

/// Each with each of the two ids.
fn pairs<T: Copy>(all: &[T]) -> Vec<(T, u8)> {
    let with_ids = |one: &T| IDS.map(|id| (*one, id));
    all.iter().flat_map(with_ids).collect()
}

impl Tally {
    pub(in crate::tally) fn status_entries(&self) -> Vec<Entry> {
        let plain = NAMES.map(|(name, status)| (name.to_string(), status));
        let all = plain.into_iter().chain(by_function());
        all.map(|(name, status)| Entry::once(name, self.of(Thing::Status(status))))
            .collect()
    }
}
