//! The frame word and the checksum.

use crate::modbus;
use crate::word;

#[test]
fn p1_to_p4_words() {
    assert_eq!(word::build(word::READ_DATA, 25, 0), Ok(0x8019_0000));
    assert_eq!(word::build(word::WRITE_DATA, 1, 0x3C00), Ok(0x1001_3C00));
    assert_eq!(word::build(word::UNKNOWN_DATAID, 25, 0), Ok(0x7019_0000));
    assert_eq!(word::build(word::DATA_INVALID, 25, 0), Ok(0xE019_0000));
}

#[test]
fn a_type_above_7_is_refusal_6() {
    for kind in 0..=7 {
        assert!(word::build(kind, 0, 0).is_ok());
    }
    for kind in 8..=255 {
        assert_eq!(word::build(kind, 0, 0), Err(6));
    }
}

#[test]
fn p8_and_published_checksums() {
    let published: [(&[u8], [u8; 2]); 7] = [
        // CRC-16/MODBUS' check value.
        (b"123456789", [0x37, 0x4B]),
        // The example in Modbus over Serial Line.
        (&[0x02, 0x07], [0x41, 0x12]),
        // P8: 003's example.
        (&[0x05, 0x03, 0x00, 0x76, 0x00, 0x01], [0x64, 0x54]),
        (&[0x01, 0x03, 0x00, 0x00, 0x00, 0x0A], [0xC5, 0xCD]),
        (&[0x01, 0x04, 0x02, 0xFF, 0xFF], [0xB8, 0x80]),
        (&[0x11, 0x03, 0x00, 0x6B, 0x00, 0x03], [0x76, 0x87]),
        (
            b"\x11\x10\x00\x01\x00\x02\x04\x00\x0A\x01\x02",
            [0xC6, 0xF0],
        ),
    ];
    for (message, sum) in published {
        assert_eq!(modbus::checksum(message), sum, "{message:02X?}");
    }
}

/// The start reaches beyond a message of less than two bytes. Worked out apart from this program.
#[test]
fn checksums_of_the_shortest() {
    let shortest: [(&[u8], [u8; 2]); 7] = [
        // Nothing but the start.
        (&[], [0xFF, 0xFF]),
        // Half of the start is turned back; the other half is left over.
        (&[0xFF], [0xFF, 0x00]),
        (&[0x00], [0xBF, 0x40]),
        (&[0x01], [0x7E, 0x80]),
        (&[0x80], [0xBE, 0xE0]),
        // The whole start is turned back: only zeros are divided.
        (&[0xFF, 0xFF], [0x00, 0x00]),
        (&[0x00, 0x00], [0x01, 0xB0]),
    ];
    for (message, sum) in shortest {
        assert_eq!(modbus::checksum(message), sum, "{message:02X?}");
    }
}
