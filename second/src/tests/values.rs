//! The table of ids and the typed values.

use crate::values::{self, Kind, Msg, Value};

const KINDS: [Kind; 6] = [
    Kind::Real,
    Kind::S16,
    Kind::U16,
    Kind::Pair,
    Kind::SPair,
    Kind::Raw,
];

#[test]
fn p5_to_p7_reals() {
    for (raw, real, bits) in [
        (0x3280, 50.5, 0x424A_0000),
        (0xFF00, -1.0, 0xBF80_0000),
        (0x8000, -128.0, 0xC300_0000u32),
    ] {
        assert_eq!(values::real_of(raw), real);
        assert_eq!(values::real_of(raw).to_bits(), bits);
    }
    assert_eq!(values::real_of(0).to_bits(), 0);
}

#[test]
fn every_value_turns_back() {
    for kind in KINDS {
        for raw in 0..=0xFFFF {
            assert_eq!(values::typed(kind, raw).back(), Ok(raw));
        }
    }
    for real in [
        f32::NAN,
        f32::INFINITY,
        -0.0,
        0.3,
        128.0,
        -128.5,
        f32::MIN_POSITIVE,
    ] {
        assert_eq!(Value::Real(real).back(), Err(10));
    }
}

#[test]
fn the_table_has_the_counted_ids() {
    let kind = |kind| {
        values::LISTED
            .iter()
            .filter(|entry| entry.1 == kind)
            .count()
    };
    let msg = |msg| values::LISTED.iter().filter(|entry| entry.2 == msg).count();
    assert_eq!(values::LISTED.len(), 101);
    assert_eq!(KINDS.map(kind), [32, 2, 22, 43, 2, 0]);
    assert_eq!([Msg::R, Msg::W, Msg::RW].map(msg), [58, 14, 29]);
    let mut ids: Vec<u8> = values::LISTED.iter().map(|entry| entry.0).collect();
    ids.sort_unstable();
    ids.dedup();
    assert_eq!(ids.len(), 101);
    assert!(ids.iter().all(|id| *id < 128));
}

/// What the product's `otids` prints is stored beside it, and its gate holds it to that; these are the same rows.
#[test]
fn the_product_lists_the_same_ids() {
    let mut listed: Vec<_> = values::LISTED.iter().collect();
    listed.sort_by_key(|entry| entry.0);
    let mut rows = String::from("id,hex,kind,scale,read,write\n");
    for &&(id, kind, msg) in &listed {
        let (name, scale) = match kind {
            Kind::Real => ("real", "0.00390625"),
            Kind::S16 => ("s16", "1"),
            Kind::U16 => ("u16", "1"),
            Kind::Pair => ("pair", "1"),
            Kind::SPair => ("spair", "1"),
            Kind::Raw => ("raw", "1"),
        };
        let read = if msg == Msg::W { '-' } else { 'R' };
        let write = if msg == Msg::R { '-' } else { 'W' };
        rows += &format!("{id},{id:02X},{name},{scale},{read},{write}\n");
    }
    assert_eq!(rows, include_str!("../../../crates/otids/stdout"));
}
