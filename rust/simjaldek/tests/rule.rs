//! Rules over records against a plain statement, which counts anew for each record over all marks since the first; and what a run keeps: its
//! answers wherever it is cut, its state, the places past the records.

mod common;

use common::{window, Words, FILL};
use simjaldek::lent::{run_rule, Records};
use simjaldek::{bitmask, evaluate, Formula, FormulaBuf, Load, Refusal, Rule, Window, WINDOW_MAX};

/// A formula, how many variables it has, and what it gives for a record before that is reduced.
type Written = (&'static str, u32, fn(&[u64]) -> u64);

const FORMULAS: [Written; 10] = [
    ("v0", 1, |r| r[0]),
    ("v0 !", 1, |r| !r[0]),
    ("c256", 1, |_| 256),
    ("v0 -", 1, |r| r[0].wrapping_neg()),
    ("v0 v1 &", 2, |r| r[0] & r[1]),
    ("v0 v1 - +", 2, |r| r[0].wrapping_sub(r[1])),
    ("v0 v1 * c4 &", 2, |r| r[0].wrapping_mul(r[1]) & 4),
    ("v0 v1 ^ v2 |", 3, |r| r[0] ^ r[1] | r[2]),
    ("v3 v3 * v0 v2 & +", 4, |r| {
        r[3].wrapping_mul(r[3]).wrapping_add(r[0] & r[2])
    }),
    ("v5 v4 ^ v3 | v2 & v1 + v0 *", 6, |r| {
        ((r[5] ^ r[4] | r[3]) & r[2])
            .wrapping_add(r[1])
            .wrapping_mul(r[0])
    }),
];

const WIDTHS: [u32; 7] = [1, 2, 8, 16, 33, 63, 64];

/// How many records: around those that could be taken at once.
const COUNTS: [usize; 14] = [0, 1, 2, 7, 8, 9, 15, 16, 17, 31, 32, 33, 48, 100];

impl Words {
    /// A word of one bit or none, below 2^w or not, so that formulas are often zero; seldom any.
    fn sparse(&mut self) -> u64 {
        match self.below(8) {
            0 => self.word(),
            1..=4 => 0,
            _ => 1 << self.below(64),
        }
    }

    fn sparse_words(&mut self, count: usize) -> Vec<u64> {
        (0..count).map(|_| self.sparse()).collect()
    }

    /// Words of one variable that are nonzero about M times of W.
    fn marks(&mut self, window: Window, count: usize) -> Vec<u64> {
        let mark = |_| u64::from(self.below(window.records.into()) < window.least.into());
        (0..count).map(mark).collect()
    }
}

fn windows() -> impl Iterator<Item = Window> {
    (1..=WINDOW_MAX).flat_map(|records| (1..=records).map(move |least| window(least, records)))
}

fn parsed(text: &str) -> FormulaBuf {
    text.parse().expect("tokens")
}

fn rule(num_vars: u32, width: u32, text: &str, window: Window) -> Rule {
    Rule::new(num_vars, width, parsed(text).as_formula(), window).expect("in range")
}

/// The plain statement: the answers and the state after these marks, which come after those of a state.
fn counted(state: u64, marks: &[bool], window: Window) -> (Vec<u8>, u64) {
    let mut all: Vec<bool> = (0..64).rev().map(|bit| state >> bit & 1 == 1).collect();
    let mut answers = Vec::new();
    for &mark in marks {
        all.push(mark);
        let last = all.iter().rev().take(window.records as usize);
        let nonzero = last.filter(|&&mark| mark).count();
        answers.push(u8::from(nonzero >= window.least as usize));
    }
    let bits = all.iter().rev().zip(0..64);
    let state = bits.map(|(&mark, bit)| u64::from(mark) << bit).sum();
    (answers, state)
}

/// One call, in places that hold something else before: the places after it and the state.
fn called(rule: &Rule, records: &[u64], places: usize) -> (Vec<u8>, u64) {
    let mut answers = vec![FILL; places];
    let (num_vars, width, window) = (rule.num_vars(), rule.width(), rule.window());
    let records = Records {
        count: records.len() / num_vars as usize,
        words: records,
    };
    let formula = rule.formula().lend();
    let state = rule.state();
    let ran = run_rule(
        num_vars,
        width,
        formula,
        window,
        state,
        records,
        &mut answers,
    );
    (answers, ran.expect("in range"))
}

/// The request's sentences, worked out by hand.
#[test]
fn by_hand() {
    let run = |text: &str, (least, records), words: &[u64]| {
        let mut rule = rule(1, 8, text, window(least, records));
        let answers = rule.feed(words).expect("whole records");
        let digits = answers.iter().map(|&fires| if fires { '1' } else { '0' });
        (digits.collect::<String>(), rule.state())
    };
    let words = [0, 1, 1, 0, 1, 0, 0, 0, 9, 9, 9];
    let all = |text: &str| (text.to_owned(), 0b01101000111);
    assert_eq!(run("v0", (1, 1), &words), all("01101000111"));
    assert_eq!(run("v0", (1, 2), &words), all("01111100111"));
    assert_eq!(run("v0", (2, 2), &words), all("00100000011"));
    assert_eq!(run("v0", (2, 3), &words), all("00111000011"));
    assert_eq!(run("v0", (3, 3), &words), all("00000000001"));
    assert_eq!(run("v0", (3, 4), &words), all("00001000001"));
    assert_eq!(run("v0", (4, 64), &words), all("00000000111"));
    // records before the first count as not nonzero, not as records of zeros
    assert_eq!(run("v0 !", (2, 2), &[0, 0]), ("01".to_owned(), 0b11));
    assert_eq!(
        run("c1", (64, 64), &[0; 65]),
        ("0".repeat(63) + "11", u64::MAX)
    );
}

/// Every M and W, from any state, with exact places and more.
#[test]
fn every_window() {
    let words = &mut Words(1);
    for (turn, window) in windows().enumerate() {
        let mut rule = rule(1, 1 + turn as u32 % 64, "v0", window);
        rule.resume([0, words.word(), u64::MAX][turn % 3]);
        let count = 1 + words.below(150) as usize;
        let records = words.marks(window, count);
        let marks: Vec<bool> = records.iter().map(|&word| word == 1).collect();
        let (mut places, state) = counted(rule.state(), &marks, window);
        places.resize(records.len() + turn % 2, FILL);
        assert_eq!(called(&rule, &records, places.len()), (places, state));
    }
}

/// Each formula at several widths, with words below 2^w and others, in runs of several lengths.
#[test]
fn formulas_and_widths() {
    let words = &mut Words(2);
    let (mut zero, mut nonzero, mut above) = (0, 0, 0);
    for (text, num_vars, value) in FORMULAS {
        for width in WIDTHS {
            for count in COUNTS {
                let window = words.window();
                let mut rule = rule(num_vars, width, text, window);
                rule.resume(words.word());
                let records = words.sparse_words(num_vars as usize * count);
                let values = records.chunks(num_vars as usize).map(value);
                let marks: Vec<bool> = values.map(|value| value & bitmask(width) != 0).collect();
                let values = records.chunks(num_vars as usize).map(value);
                above += values
                    .zip(&marks)
                    .filter(|&(value, mark)| value != 0 && !mark)
                    .count();
                nonzero += marks.iter().filter(|&&mark| mark).count();
                zero += marks.iter().filter(|&&mark| !mark).count();
                let expected = counted(rule.state(), &marks, window);
                assert_eq!(called(&rule, &records, count), expected, "{text}");
            }
        }
    }
    let least = zero.min(nonzero).min(above);
    assert!(least > 1000, "{zero} zero, {nonzero} not, {above} above");
}

/// Drawn formulas of up to 64 tokens, their values by `evaluate`.
#[test]
fn drawn_formulas() {
    let words = &mut Words(3);
    for num_vars in 1..=6 {
        for width in WIDTHS {
            let load = Load::new(words.word(), num_vars, width, 64).expect("in range");
            for formula in load.take(20) {
                let formula = formula.as_formula();
                let window = words.window();
                let mut rule = Rule::new(num_vars, width, formula, window).expect("in range");
                rule.resume(words.word());
                let count = words.below(70) as usize;
                let records = words.sparse_words(num_vars as usize * count);
                let expected = counted(rule.state(), &marks(formula, &rule, &records), window);
                assert_eq!(called(&rule, &records, count), expected, "{formula}");
            }
        }
    }
}

/// The marks of records, one by one.
fn marks(formula: Formula<'_>, rule: &Rule, records: &[u64]) -> Vec<bool> {
    let (num_vars, width) = (rule.num_vars(), rule.width());
    let records = records.chunks(num_vars as usize);
    let values = records.map(|record| evaluate(num_vars, width, formula, record));
    values.map(|value| value.expect("a formula") != 0).collect()
}

/// What lies at 2^w and above counts for nothing, in words, in constants and in what comes between.
#[test]
fn nonzero_from_the_width_up_alone() {
    let fires = |text: &str, num_vars: u32, record: &[u64]| {
        let mut rule = rule(num_vars, 8, text, window(1, 1));
        rule.feed_one(record).expect("one record")
    };
    for (text, num_vars, record) in [
        ("v0", 1, &[256][..]),
        ("v0", 1, &[0xFF00]),
        ("v0", 1, &[u64::MAX << 8]),
        ("c256", 1, &[1]),
        ("v0 v1 +", 2, &[255, 1]),
        ("v0 v1 +", 2, &[u64::MAX, 1]),
        ("v0 v0 *", 1, &[16]),
        ("v0 v1 ^", 2, &[7, 0xABCD_0007]),
        ("v0 !", 1, &[255]),
        ("v0 !", 1, &[u64::MAX]),
        ("v0 -", 1, &[512]),
        ("v0 v1 |", 2, &[1 << 63, 1 << 8]),
    ] {
        assert!(!fires(text, num_vars, record), "{text} {record:?}");
    }
    for (text, num_vars, record) in [
        ("v0", 1, &[257][..]),
        ("v0", 1, &[u64::MAX]),
        ("v0 !", 1, &[256]),
        ("v0 v1 ^", 2, &[7, 0xABCD_0006]),
        ("v0 v1 +", 2, &[255, 256]),
    ] {
        assert!(fires(text, num_vars, record), "{text} {record:?}");
    }
}

/// Words past the records, and places past the answers, are neither read nor written.
#[test]
fn longer_arrays() {
    let words = &mut Words(4);
    for count in COUNTS {
        for more in [0, 1, 2, 15, 16, 17, 40] {
            let rule = rule(3, 16, "v0 v1 & v2 |", window(3, 7));
            let records = words.sparse_words(3 * count);
            let (mut expected, state) = called(&rule, &records, count);
            expected.resize(count + more, FILL);
            let longer = [records, words.sparse_words(more)].concat();
            let mut answers = vec![FILL; count + more];
            let records = Records {
                count,
                words: &longer,
            };
            let formula = rule.formula().lend();
            let ran = run_rule(3, 16, formula, rule.window(), 0, records, &mut answers);
            assert_eq!((answers, ran), (expected, Ok(state)));
        }
    }
}

/// What the places held before makes no difference to the answers.
#[test]
fn garbage_in_the_places() {
    let rule = rule(1, 8, "v0", window(2, 3));
    let records = Words(5).marks(window(2, 3), 100);
    let (expected, _) = called(&rule, &records, 100);
    for garbage in [0, 1, 2, 254, 255] {
        let mut answers = vec![garbage; 100];
        assert_eq!(rule.clone().feed_into(&records, &mut answers), Ok(100));
        assert_eq!(answers, expected);
    }
}

/// The state is the marks of the last 64 records, and older ones than the window's don't count.
#[test]
fn states() {
    let words = &mut Words(6);
    for window in windows().step_by(7) {
        let state = words.word();
        let mut rule = rule(1, 8, "v0", window);
        rule.resume(state);
        let answers = rule.feed(&[0, 5]).expect("whole records");
        assert_eq!(rule.state(), state << 2 | 1);
        // the first of the two is answered by W - 1 records before it
        let seen = bitmask(window.records) >> 1;
        for other in [state & seen, state | !seen] {
            rule.resume(other);
            assert_eq!(rule.feed(&[0, 5]).as_ref(), Ok(&answers));
        }
    }
}

/// Cut into calls anywhere, empty ones too, a run has the answers and the state of one call.
#[test]
fn cut_anywhere() {
    let words = &mut Words(7);
    for (text, num_vars, _) in FORMULAS {
        for _ in 0..40 {
            let window = words.window();
            let whole = rule(num_vars, 8, text, window);
            let count = words.below(300) as usize;
            let records = words.sparse_words(num_vars as usize * count);
            let expected = called(&whole, &records, count);
            let mut cut = whole;
            let (mut answers, mut rest) = (Vec::new(), &records[..]);
            while answers.len() < count {
                let most = [1, 3, 20, 80][words.below(4) as usize];
                let some = (words.below(most + 1) as usize).min(count - answers.len());
                let (slice, after) = rest.split_at(num_vars as usize * some);
                let fired = cut.feed(slice).expect("whole records");
                answers.extend(fired.into_iter().map(u8::from));
                rest = after;
            }
            assert_eq!((answers, cut.state()), expected);
        }
    }
}

/// One by one, by slices and by lent places.
#[test]
fn record_by_record() {
    let words = &mut Words(8);
    let mut rules = [(); 3].map(|()| rule(2, 16, "v0 v1 - + c32768 &", window(5, 9)));
    let records = words.sparse_words(2 * 500);
    let [slices, places, ones] = &mut rules;
    let answers = slices.feed(&records).expect("whole records");
    assert!(answers.contains(&true) && answers.contains(&false));
    let mut bytes = [FILL; 501];
    assert_eq!(places.feed_into(&records, &mut bytes), Ok(500));
    assert_eq!(bytes[500], FILL);
    for (place, record) in records.chunks(2).enumerate() {
        assert_eq!(ones.feed_one(record), Ok(answers[place]));
        assert_eq!(bytes[place], u8::from(answers[place]));
    }
    assert!(rules.iter().all(|rule| *rule == rules[0]));
}

/// A run of a million records in one call and in a thousand.
#[test]
fn a_million_records() {
    const CALLS: usize = 1000;
    const MILLION: usize = 1000 * CALLS;
    let window = window(11, 24);
    let records = Words(9).marks(window, MILLION);
    let mut whole = rule(1, 32, "v0", window);
    let mut parts = whole.clone();
    let mut answers = vec![FILL; MILLION];
    assert_eq!(whole.feed_into(&records, &mut answers), Ok(MILLION));
    let mut cut = Vec::new();
    for slice in records.chunks(MILLION / CALLS) {
        cut.extend(parts.feed(slice).expect("whole records"));
    }
    assert_eq!(cut.len(), MILLION);
    assert!(cut
        .iter()
        .copied()
        .map(u8::from)
        .eq(answers.iter().copied()));
    assert_eq!(parts, whole);
    let marks: Vec<bool> = records.iter().map(|&word| word == 1).collect();
    assert_eq!(counted(0, &marks, window), (answers, whole.state()));
    let fired = cut.iter().filter(|&&fires| fires).count();
    assert!((MILLION / 4..MILLION).contains(&fired), "{fired}");
}

/// What a rule was told, and where its run stands.
#[test]
fn told() {
    let mut rule = rule(2, 16, "v0 v1 ^", window(2, 3));
    assert_eq!((rule.num_vars(), rule.width()), (2, 16));
    assert_eq!(rule.formula().to_string(), "v0 v1 ^");
    assert_eq!((rule.window(), rule.state()), (window(2, 3), 0));
    let fresh = rule.clone();
    assert_eq!(rule.feed(&[1, 2, 1, 1, 3, 2]), Ok(vec![false, false, true]));
    assert_eq!(rule.state(), 0b101);
    assert_ne!(rule, fresh);
    rule.reset();
    assert_eq!(rule, fresh);
    rule.resume(0b101);
    assert_eq!(rule.feed_one(&[1, 2]), Ok(true));
    assert_eq!(rule.feed_one(&[]), Err(Refusal::ShortArray));
}
