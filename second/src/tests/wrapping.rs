//! 02's Ask 4, the two forms: what each takes, what it refuses and in which order, and that the mapping
//! behind them is one.

use super::bench::{asking, both_17, message_41, tcp};
use crate::gateway::{Event, Gateway};
use crate::modbus::{closed, Wrapping};

const FORMS: [Wrapping; 2] = [Wrapping::Serial, Wrapping::Tcp];

/// A TCP box that is asked once, in a room of 16.
fn given(message: &[u8]) -> Event {
    Gateway::fresh(Wrapping::Tcp).message(message, 16)
}

#[test]
fn what_is_put_on_is_taken_off() {
    let bodies = [vec![1, 3], vec![5, 0x83, 2], vec![0; 254], vec![255; 8]];
    for body in bodies {
        for form in FORMS {
            for transaction in [0, 1, 0x0100, 0x1501, 0xFFFF] {
                let message = form.put_on(transaction, &body);
                let taken = form.taken_off(&message).unwrap();
                let echoed = if form == Wrapping::Tcp {
                    transaction
                } else {
                    0
                };
                assert_eq!((taken.transaction, taken.body), (echoed, &body[..]));
            }
        }
    }
    assert_eq!(
        Wrapping::Tcp.put_on(0x1501, &[1, 3, 2, 0, 5]),
        [0x15, 0x01, 0, 0, 0, 5, 1, 3, 2, 0, 5]
    );
}

/// Every protocol and every length field, for lengths at the borders.
#[test]
fn each_number_before_the_unit_is_looked_at_whole() {
    for bytes in [8, 12, 259, 260] {
        let good = tcp(0x1234, &vec![1; bytes - 6]);
        for number in 0..=0xFFFFu16 {
            let [high, low] = number.to_be_bytes();
            let mut protocol = good.clone();
            protocol[2..4].copy_from_slice(&[high, low]);
            let taken = Wrapping::Tcp.taken_off(&protocol).map(|_| ());
            assert_eq!(taken, if number == 0 { Ok(()) } else { Err(17) });
            let mut length = good.clone();
            length[4..6].copy_from_slice(&[high, low]);
            let taken = Wrapping::Tcp.taken_off(&length).map(|_| ());
            let right = usize::from(number) == bytes - 6;
            assert_eq!(taken, if right { Ok(()) } else { Err(18) });
        }
    }
}

#[test]
fn each_length_whatever_the_fields_say() {
    for bytes in 0..=300usize {
        let mut message = vec![1; bytes];
        for field in [bytes.wrapping_sub(6) as u16, 0, 1, 0xFFFF] {
            let head = [0x1234, 0, field].map(u16::to_be_bytes).concat();
            let shared = bytes.min(6);
            message[..shared].copy_from_slice(&head[..shared]);
            let taken = Wrapping::Tcp
                .taken_off(&message)
                .map(|taken| taken.body.len());
            let expected = match (8..=260).contains(&bytes) {
                false => Err(11),
                true if usize::from(field) == bytes - 6 => Ok(bytes - 6),
                true => Err(18),
            };
            assert_eq!(taken, expected);
        }
    }
}

/// Everything is wrong at first; then one thing after the other is put right.
#[test]
fn the_order_is_15_11_17_18_13_14() {
    let mut message = [vec![0x12, 0x34, 1, 0, 1, 0, 9, 0x83], vec![0; 253]].concat();
    let mut gateway = Gateway::fresh(Wrapping::Tcp);
    assert_eq!(gateway.message(&message, 15), Event::Refused(15));
    assert_eq!(gateway.message(&message, 16), Event::Refused(11));
    message.truncate(12);
    assert_eq!(gateway.message(&message, 16), Event::Refused(17));
    message[2] = 0;
    assert_eq!(gateway.message(&message, 16), Event::Refused(18));
    message[4..6].copy_from_slice(&[0, 6]);
    assert_eq!(gateway.message(&message, 16), Event::Refused(13));
    message[6] = 1;
    assert_eq!(gateway.message(&message, 16), Event::Refused(14));
    message[7] = 0x05;
    let bytes = tcp(0x1234, &[1, 0x85, 1]);
    assert_eq!(gateway.message(&message, 16), Event::Reply { bytes });
    assert!(gateway.order.is_none() && gateway.lines == Gateway::fresh(Wrapping::Tcp).lines);
}

/// Neither form's message is taken by the other, but where its bytes are good in both.
#[test]
fn the_forms_are_apart() {
    let body = [1, 3, 0, 25, 0, 1];
    assert_eq!(given(&closed(&body)), Event::Refused(17));
    assert_eq!(given(&closed(&[1, 3, 0, 0, 0, 1])), Event::Refused(18));
    assert_eq!(given(&closed(&[1, 3])), Event::Refused(11));
    let mut serial = Gateway::fresh(Wrapping::Serial);
    assert_eq!(serial.message(&tcp(7, &body), 16), Event::Refused(12));
    let both = closed(&[1, 3, 0, 0, 0, 6, 2, 6, 0, 1]);
    assert!(matches!(given(&both), Event::Accepted { order } if order.unit == 2));
    let bytes = closed(&[1, 0x83, 3]);
    assert_eq!(serial.message(&both, 16), Event::Reply { bytes });
}

/// Bodies of every row, of unit 5, and wrong ones.
fn bodies() -> Vec<Vec<u8>> {
    let mut closed = vec![message_41(1, 25, 0x0102), both_17(2, 70, 0x1234)];
    closed.extend(asking(3, 25));
    closed.extend(asking(4, 0));
    let mut all: Vec<Vec<u8>> = closed
        .into_iter()
        .map(|message| message[..message.len() - 2].to_vec())
        .collect();
    all.extend([
        vec![1, 0x06, 0, 1, 0x3C, 0],
        vec![2, 0x10, 0, 1, 0, 1, 2, 0x3C, 0],
        vec![5, 3, 0, 0x76, 0, 1],
        vec![5, 3, 0, 0x77, 0, 1],
        vec![1, 5, 0, 0, 0, 0],
        vec![1, 3, 0, 25, 0, 2],
        vec![0, 3, 0, 25, 0, 1],
        vec![1, 0x83, 0, 25, 0, 1],
    ]);
    all
}

/// "So that demands 2 and 3 read the same under either": what the lines do is the same, and so is
/// each reply but for what stands around its body.
#[test]
fn both_forms_give_the_same_bodies() {
    for body in bodies() {
        let [serial, tcp] = FORMS.map(|form| {
            let mut gateway = Gateway::fresh(form);
            let first = gateway.message(&form.put_on(0xA1B2, &body), 16);
            let busy = gateway.message(&form.put_on(0xC3D4, &[4, 3, 0, 25, 0, 1]), 16);
            let mut events = vec![first, busy];
            events.extend((0..975).flat_map(|_| gateway.tick(16)));
            events.into_iter().map(|event| bare(form, event)).collect()
        });
        let (serial, tcp): (Vec<Event>, Vec<Event>) = (serial, tcp);
        assert_eq!(serial, tcp);
    }
}

/// The event with its reply's form taken off.
fn bare(form: Wrapping, mut event: Event) -> Event {
    if let Event::Reply { bytes } | Event::Outcome { bytes, .. } = &mut event {
        *bytes = match form {
            Wrapping::Serial => bytes[..bytes.len() - 2].to_vec(),
            Wrapping::Tcp => bytes[6..].to_vec(),
        };
    }
    event
}

/// "The order under way keeps its own message's transaction."
#[test]
fn an_outcome_echoes_its_orders_transaction() {
    let read = [1, 3, 0, 25, 0, 1];
    for (answer, body) in [
        (Some(0x4019_3280), vec![1, 3, 2, 0x32, 0x80]),
        (Some(0x7019_0000), vec![1, 0x83, 2]),
        (None, vec![1, 0x83, 0x0B]),
    ] {
        let mut gateway = Gateway::fresh(Wrapping::Tcp);
        gateway.message(&tcp(0xA1B2, &read), 16);
        let reply = |bytes| Event::Reply { bytes };
        for (later, given) in [
            (tcp(1, &read), reply(tcp(1, &[1, 0x83, 6]))),
            (
                tcp(2, &[5, 3, 0, 0x76, 0, 1]),
                reply(tcp(2, &[5, 3, 2, 1, 0])),
            ),
            (tcp(3, &[6, 3, 0, 25, 0, 1]), Event::Refused(13)),
            (closed(&read), Event::Refused(17)),
        ] {
            assert_eq!(gateway.message(&later, 16), given);
        }
        let sent = (0..974).flat_map(|_| gateway.tick(16)).count();
        assert_eq!(sent, 1);
        let outcome = match answer {
            Some(frame) => gateway.boiler(1, frame, 16),
            None => gateway.tick(16).remove(0),
        };
        let Event::Outcome { bytes, .. } = outcome else {
            panic!("{outcome:?}");
        };
        assert_eq!(bytes, tcp(0xA1B2, &body));
    }
}
