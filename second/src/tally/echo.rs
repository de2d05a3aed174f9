//! Which transactions the replies of a TCP box echoed (02, Ask 4), and which they could have echoed in
//! their place. It goes by the script and its trace, not by the box's own memory.

use std::collections::BTreeMap;

use super::entry::Entry;
use super::modbus::{AT_ONCE, FORMS};
use super::{Tally, Thing};
use crate::gateway::Event;
use crate::modbus::{Transaction, Wrapping};

#[derive(Clone, Copy, PartialEq, Eq, PartialOrd, Ord, Debug)]
pub enum Echo {
    /// A reply's transaction of the shape that has this place.
    Shape(usize),
    /// An outcome's transaction, while this message had another.
    Outcome(Other),
    /// That of a reply at once, while this message had another.
    AtOnce(Other),
}

#[derive(Clone, Copy, PartialEq, Eq, PartialOrd, Ord, Debug)]
pub enum Other {
    /// The last message; the one before the order's own, or before the one that is answered at once.
    Last,
    Before,
    /// The order that is under way, and the one before it.
    Order,
    OrderBefore,
    /// Since the order was accepted: refused with this number, given this exception, or answered by
    /// unit 5 without one.
    Refused(u8),
    Exception(u8),
    Own,
}

/// A shape of a transaction by name, and which have it.
type Shape = (&'static str, fn(Transaction) -> bool);

const SHAPES: [Shape; 5] = [
    ("0000", |transaction| transaction == 0),
    ("FFFF", |transaction| transaction == 0xFFFF),
    ("low byte alone", |transaction| transaction & 0xFF00 == 0),
    ("high byte alone", |transaction| transaction & 0x00FF == 0),
    ("unlike bytes", |transaction| {
        transaction != transaction.swap_bytes()
    }),
];

/// Those of a TCP box. Where a message is too short for a transaction it has none.
#[derive(Default)]
pub struct Memory {
    last: Option<Transaction>,
    order: Option<Transaction>,
    order_before: Option<Transaction>,
    before: Option<Transaction>,
    since: BTreeMap<Other, Transaction>,
}

fn transaction(bytes: &[u8]) -> Option<Transaction> {
    Some(u16::from_be_bytes([*bytes.first()?, *bytes.get(1)?]))
}

impl Tally {
    pub(super) fn echo_message(&mut self, message: &[u8], given: &Event) {
        let Some(own) = transaction(message).filter(|_| self.form() == Wrapping::Tcp) else {
            return;
        };
        match given {
            Event::Reply { bytes } if transaction(bytes) == Some(own) => {
                let others = [
                    (Other::Order, self.echo.order),
                    (Other::Before, self.echo.last),
                ];
                self.unlike(own, &others, Echo::AtOnce);
            }
            Event::Accepted { .. } => {
                self.echo.before = self.echo.last;
                self.echo.order = Some(own);
                self.echo.since.clear();
            }
            _ => {}
        }
        let later = match given {
            Event::Refused(number) => Some(Other::Refused(*number)),
            Event::Reply { bytes } => {
                let code = self.exception(bytes);
                Some(code.map_or(Other::Own, Other::Exception))
            }
            _ => None,
        };
        self.echo.since.extend(later.map(|later| (later, own)));
        self.echo.last = Some(own);
    }

    pub(super) fn echo_event(&mut self, event: &Event) {
        let Event::Outcome { bytes, .. } = event else {
            return;
        };
        let own = self.echo.order.take();
        if let (Some(own), true) = (own, transaction(bytes) == own) {
            let memory = &self.echo;
            let mut others = vec![
                (Other::Last, memory.last),
                (Other::Before, memory.before),
                (Other::OrderBefore, memory.order_before),
            ];
            others.extend(memory.since.iter().map(|(other, one)| (*other, Some(*one))));
            self.unlike(own, &others, Echo::Outcome);
        }
        self.echo.order_before = own;
    }

    fn unlike(
        &mut self,
        own: Transaction,
        others: &[(Other, Option<Transaction>)],
        echo: fn(Other) -> Echo,
    ) {
        for (other, transaction) in others {
            if transaction.is_some_and(|transaction| transaction != own) {
                self.count(Thing::Echo(echo(*other)));
            }
        }
        for place in (0..SHAPES.len()).filter(|place| SHAPES[*place].1(own)) {
            self.count(Thing::Echo(Echo::Shape(place)));
        }
    }

    pub(super) fn echo_entries(&self) -> Vec<Entry> {
        let shapes = SHAPES.iter().enumerate().map(|(place, (shape, _))| {
            let name = format!("TCP: a reply's transaction: {shape}");
            (name, Echo::Shape(place))
        });
        shapes
            .chain(named())
            .map(|(name, echo)| Entry::once(name, self.of(Thing::Echo(echo))))
            .collect()
    }
}

/// The messages whose transaction an outcome could have taken for its own.
fn others() -> Vec<(String, Other)> {
    let plain = [
        ("the last message's", Other::Last),
        ("the message's before the order", Other::Before),
        ("the order's before it", Other::OrderBefore),
        ("a later one's that unit 5 answered", Other::Own),
    ];
    let mut all: Vec<(String, Other)> = plain.map(|(name, other)| (name.into(), other)).into();
    for (_, _, refusals) in FORMS.iter().filter(|form| form.0 == Wrapping::Tcp) {
        for number in *refusals {
            let name = format!("a later one's that {number} refused");
            all.push((name, Other::Refused(*number)));
        }
    }
    for code in AT_ONCE {
        let name = format!("a later one's that had exception {code:02X}");
        all.push((name, Other::Exception(code)));
    }
    all
}

fn named() -> Vec<(String, Echo)> {
    let outcome = |(name, other)| {
        let name = format!("TCP: an outcome's transaction, not {name}");
        (name, Echo::Outcome(other))
    };
    let mut all: Vec<(String, Echo)> = others().into_iter().map(outcome).collect();
    for (name, other) in [
        ("the order's under way", Other::Order),
        ("the message's before", Other::Before),
    ] {
        let name = format!("TCP: the transaction of a reply at once, not {name}");
        all.push((name, Echo::AtOnce(other)));
    }
    all
}
