//! The hash of what each side wrote.

use crate::written::{fnv_1a, Written, FNV_START};

/// What is told of these runs, the product's output before the second program's.
fn told(runs: &[(&[u8], &[u8])]) -> String {
    let mut written = Written::default();
    for (given, own) in runs {
        written.add(&Ok(given.to_vec()), own);
    }
    written.to_string()
}

#[test]
fn published_hashes() {
    assert_eq!(fnv_1a(FNV_START, b""), 0xCBF2_9CE4_8422_2325);
    assert_eq!(fnv_1a(FNV_START, b"a"), 0xAF63_DC4C_8601_EC8C);
    assert_eq!(fnv_1a(FNV_START, b"foobar"), 0x8594_4171_F739_67E8);
}

/// Worked out apart from this program: the length in eight bytes, low byte first, then the output.
#[test]
fn each_side_is_hashed_from_its_own_bytes() {
    assert_eq!(
        told(&[(b"a", b"")]),
        "ours 529a4ddc8ff56bbf (1 bytes), second a8c7f832281a39c5 (0 bytes)"
    );
    let mut written = Written::default();
    written.add(&Err("gave nothing".to_string()), b"a");
    assert_eq!(
        written.to_string(),
        "ours cbf29ce484222325 (0 bytes), second 529a4ddc8ff56bbf (1 bytes)"
    );
}

#[test]
fn outputs_do_not_run_into_each_other() {
    assert_eq!(
        told(&[(b"ab", b"a"), (b"c", b"bc")]),
        "ours 7e60470bf599cad6 (3 bytes), second ba1e1f0e0704d8ea (3 bytes)"
    );
}
