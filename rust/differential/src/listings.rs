//! The listing's text, of banks and indexes and of texts that are damaged.

use oracle::answers::listings::{expected, text_for};
use oracle::inputs::Inputs;
use oracle::made::banks::BankInput;
use oracle::spec::listing::LIMIT_MAX;
use simjaldek::lent::{self, TEXT_MAX};

use crate::any_width;
use crate::report::{Kind, Report};

/// What fills the buffer before the call.
const FILL: u8 = 0x5A;

/// One text as it is, and one damaged in a byte or cut off.
pub fn compare(inputs: &mut Inputs, report: &mut Report) {
    let num_vars = inputs.one_of(&[1, 1, 1, 2]);
    let width = any_width(inputs);
    let bank = BankInput::of_any_style(inputs, num_vars, width);
    let limit = inputs.one_of(&[0, 1, 30, LIMIT_MAX, LIMIT_MAX + 1]);
    let mut text = text_for(&bank, limit);
    listing(report, &text);
    let at = inputs.below(text.len() as u64) as usize;
    match inputs.below(3) {
        0 => text.truncate(at),
        1 => text[at] = inputs.one_of(b"0129 \n\r\tx-"),
        _ => text.insert(at, inputs.one_of(b"0129 \n\r\tx-")),
    }
    listing(report, &text);
}

/// The text that both sides give, and the places after it, which stay as they were.
fn listing(report: &mut Report, text: &[u8]) {
    let theirs = expected(text).into_bytes();
    let mut out = vec![FILL; TEXT_MAX];
    let ours = lent::write_listing(text, &mut out).map(|length| {
        let kept = out.split_off(length).iter().all(|&byte| byte == FILL);
        (out, kept)
    });
    report.compare(Kind::Listing, &text, &ours, &Ok((theirs, true)));
}
