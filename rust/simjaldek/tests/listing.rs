//! The listing of a whole text: the listing program's own sample, refusals, and a buffer that is too short.

use simjaldek::lent::{write_listing, TEXT_MAX};
use simjaldek::{listing, Refusal};

const SAMPLE: &[u8] = include_bytes!("../../../crates/list/stdin");
const LISTED: &[u8] = include_bytes!("../../../crates/list/stdout");

#[test]
fn sample() {
    assert_eq!(listing(SAMPLE), LISTED);
    let more = [b"\r\n 00", SAMPLE, b" \n"].concat();
    assert_eq!(listing(&more), LISTED);
}

#[test]
fn refused_texts() {
    assert_eq!(listing(b""), b"refused 9\n");
    assert_eq!(listing(b"1 1 10 x"), b"refused 9\n");
    let numbers = |nv: u64, width: u64, limit: u64| {
        let words = " 0".repeat(16 * nv as usize + 16);
        listing(format!("{nv} {width} {limit}{words}").as_bytes())
    };
    assert_eq!(numbers(7, 0, 501), b"refused 1\n");
    assert_eq!(numbers(1, 65, 501), b"refused 2\n");
    assert_eq!(numbers(1, 64, 501), b"refused 3\n");
    assert!(numbers(1, 64, 500).starts_with(b"atoms "));
}

#[test]
fn places_beyond() {
    let mut out = vec![0x5A; TEXT_MAX + 3];
    assert_eq!(write_listing(SAMPLE, &mut out), Ok(LISTED.len()));
    assert_eq!(&out[..LISTED.len()], LISTED);
    assert!(out[LISTED.len()..].iter().all(|&byte| byte == 0x5A));
}

#[test]
fn short_buffer() {
    let mut out = vec![0x5A; TEXT_MAX - 1];
    assert_eq!(write_listing(SAMPLE, &mut out), Err(Refusal::ShortArray));
    assert!(out.iter().all(|&byte| byte == 0x5A));
}
