//! The form of a request.

/// The fields of a request whose length, byte count and counts are right.
pub struct Request {
    pub counts: (u16, u16),
    pub offset: u16,
    /// Both sides of 17 are looked at and they aren't equal.
    pub unlike_offsets: bool,
    pub value: u16,
    pub message: u16,
}

/// "Exact length and byte count, then counts": "Counts are 1 (for 17: 0 or 1 each, not both
/// 0)."
pub fn read(function: u8, data: &[u8]) -> Option<Request> {
    let number = |high, low| u16::from_be_bytes([high, low]);
    let plain = |counts, offset, value| {
        Some(Request {
            counts,
            offset,
            unlike_offsets: false,
            value,
            message: 0,
        })
    };
    match (function, data) {
        (0x03 | 0x04, &[oh, ol, 0, 1]) => plain((1, 0), number(oh, ol), 0),
        (0x06, &[oh, ol, vh, vl]) => plain((0, 1), number(oh, ol), number(vh, vl)),
        (0x10, &[oh, ol, 0, 1, 2, vh, vl]) => plain((0, 1), number(oh, ol), number(vh, vl)),
        (0x17, &[rh, rl, nh, nl, wh, wl, mh, ml, byte_count, ref written @ ..]) => {
            let counts = (number(nh, nl), number(mh, ml));
            request_17(number(rh, rl), number(wh, wl), counts, byte_count, written)
        }
        (0x41, &[oh, ol, vh, vl, mh, ml]) => {
            let request = plain((1, 1), number(oh, ol), number(vh, vl))?;
            Some(Request {
                message: number(mh, ml),
                ..request
            })
        }
        _ => None,
    }
}

/// "For 17 with both, the two offsets are equal (else 02); with one, only that side's offset is
/// looked at."
fn request_17(
    read_offset: u16,
    write_offset: u16,
    counts: (u16, u16),
    byte_count: u8,
    data: &[u8],
) -> Option<Request> {
    if data.len() != usize::from(byte_count) || u32::from(byte_count) != 2 * u32::from(counts.1) {
        return None;
    }
    let (offset, value) = match (counts, data) {
        ((1, 0), &[]) => (read_offset, 0),
        ((0, 1), &[high, low]) => (write_offset, u16::from_be_bytes([high, low])),
        ((1, 1), &[high, low]) => (read_offset, u16::from_be_bytes([high, low])),
        _ => return None,
    };
    let unlike_offsets = counts == (1, 1) && read_offset != write_offset;
    Some(Request {
        counts,
        offset,
        unlike_offsets,
        value,
        message: 0,
    })
}
