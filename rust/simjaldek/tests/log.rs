//! Closing logs against a plain statement, which counts anew for each record over all records of its sounding; and logs that no run gives.

mod common;

use common::{window, Words};
use simjaldek::lent::{open_log, run_log, Records, Rules};
use simjaldek::{
    Close, FormulaBuf, Log, LogState, RankedRule, Refusal, Rule, Window, LOG_RULES_MAX,
};

const MOST: u64 = u64::MAX;

/// A rule that watches one bit of one word of a record.
#[derive(Clone, Debug)]
struct Watch {
    rank: u32,
    word: usize,
    bit: u32,
    window: Window,
    formula: FormulaBuf,
}

impl Watch {
    fn new(rank: u32, word: usize, bit: u32, window: Window) -> Self {
        let formula = format!("v{word} c{} &", 1u64 << bit);
        Watch {
            rank,
            word,
            bit,
            window,
            formula: formula.parse().expect("tokens"),
        }
    }

    fn is_marked(&self, record: &[u64]) -> bool {
        record[self.word] >> self.bit & 1 == 1
    }

    /// Whether it fires at the last of these records, by a fresh count.
    fn fires(&self, records: &[&[u64]]) -> bool {
        let last = records.iter().rev().take(self.window.records as usize);
        let marked = last.filter(|record| self.is_marked(record)).count();
        marked >= self.window.least as usize
    }

    fn ranked(&self) -> RankedRule<'_> {
        RankedRule {
            rank: self.rank,
            formula: self.formula.as_formula(),
            window: self.window,
        }
    }
}

/// Burst, rank 1, watches bit 0 and takes two of three; signal loss, rank 2, watches bit 1 and takes two of two.
fn burst_and_loss() -> [Watch; 2] {
    [
        Watch::new(1, 0, 0, window(2, 3)),
        Watch::new(2, 0, 1, window(2, 2)),
    ]
}

fn log_of(num_vars: u32, width: u32, rules: &[Watch]) -> Log {
    let rules: Vec<RankedRule<'_>> = rules.iter().map(Watch::ranked).collect();
    Log::new(num_vars, width, &rules).expect("in range")
}

/// The plain statement: the log of a sounding that has had these records.
fn shown(rules: &[Watch], records: &[&[u64]]) -> LogState {
    let least_rank = |place: usize| {
        let fire = rules.iter().filter(|rule| rule.fires(&records[..=place]));
        fire.map(|rule| rule.rank).min()
    };
    let ranks = (0..records.len()).map(least_rank);
    let fired: Vec<(u64, u32)> = (1..)
        .zip(ranks)
        .filter_map(|(k, r)| Some((k, r?)))
        .collect();
    let (closed_at, rank) = fired.first().copied().unwrap_or((0, 0));
    let mut log = LogState {
        open: 1,
        rank,
        number: records.len() as u64,
        closed_at,
        later: fired.len().saturating_sub(1) as u64,
        windows: [0; LOG_RULES_MAX],
    };
    for (rule, seen) in rules.iter().zip(&mut log.windows) {
        let marks = records.iter().rev().map(|record| rule.is_marked(record));
        *seen = (0..64)
            .zip(marks)
            .map(|(bit, mark)| u64::from(mark) << bit)
            .sum();
    }
    log
}

fn close(number: u64, rank: u32) -> Option<Close> {
    Some(Close { number, rank })
}

/// What a log shows: number, close, later firings.
fn told(log: &Log) -> (u64, Option<Close>, u64) {
    (log.number(), log.close(), log.later())
}

/// The request's sentences, worked out by hand.
#[test]
fn by_hand() {
    let after = |records: &[u64]| {
        let mut log = log_of(1, 8, &burst_and_loss());
        log.open();
        let closed = log.records(records).expect("whole records");
        assert_eq!(closed, log.close());
        told(&log)
    };
    assert_eq!(after(&[]), (0, None, 0));
    assert_eq!(after(&[1, 0, 0, 1, 2, 0]), (6, None, 0));
    // both on one record: the smaller rank
    assert_eq!(after(&[0, 3, 3]), (3, close(3, 1), 0));
    // signal loss first, and burst on the next: the close stays
    assert_eq!(after(&[2, 3, 1]), (3, close(2, 2), 1));
    // burst first; what fires later is counted, once where both fire
    assert_eq!(after(&[1, 1, 2, 2, 3, 3]), (6, close(2, 1), 4));
    assert_eq!(after(&[3, 3, 3, 3]), (4, close(2, 1), 2));
    // the windows go on after the close: records 3 and 6 fire, 6 by what came after it
    assert_eq!(after(&[1, 1, 0, 0, 2, 2]), (6, close(2, 1), 2));
}

#[test]
fn before_any_opening() {
    let mut log = log_of(1, 8, &burst_and_loss());
    for _ in 0..3 {
        assert_eq!(log.records(&[3, 3, 3, 3]), Ok(None));
        assert_eq!((log.is_open(), log.state()), (false, LogState::default()));
    }
    log.open();
    assert!(log.is_open());
    // nothing of them counts
    assert_eq!(log.record(&[3]), Ok(None));
    assert_eq!(log.record(&[3]), Ok(close(2, 1)));
}

#[test]
fn opened_again() {
    let mut log = log_of(1, 8, &burst_and_loss());
    log.open();
    assert_eq!(log.record(&[3]), Ok(None));
    // the earlier sounding gets no close, and its record is in no window
    log.open();
    assert_eq!((log.record(&[3]), told(&log)), (Ok(None), (1, None, 0)));
    assert_eq!(log.records(&[3, 3]), Ok(close(2, 1)));
    assert_eq!(told(&log), (3, close(2, 1), 1));
    log.open();
    assert_eq!((log.is_open(), told(&log)), (true, (0, None, 0)));
    assert_eq!(log.records(&[2, 2]), Ok(close(2, 2)));
}

/// Any rules: each in a place of its own, with a rank of its own.
fn any_rules(words: &mut Words, count: usize, num_vars: u32, width: u32) -> Vec<Watch> {
    let mut ranks: Vec<u32> = (1..=8).collect();
    let rule = |_| {
        let rank = ranks.swap_remove(words.below(ranks.len() as u64) as usize);
        let word = words.below(num_vars.into()) as usize;
        let bit = words.below(width.into()) as u32;
        let few = window(1 + words.below(3) as u32, 3 + words.below(3) as u32);
        let any = words.window();
        let window = [few, any][words.below(2) as usize];
        Watch::new(rank, word, bit, window)
    };
    (0..count).map(rule).collect()
}

/// So many records, in each word of which a bit is set one time in `sparsity`.
fn any_records(words: &mut Words, num_vars: u32, count: usize, sparsity: u32) -> Vec<u64> {
    let word = |_| (0..sparsity).fold(MOST, |all, _| all & words.word());
    (0..num_vars as usize * count).map(word).collect()
}

/// Feeds some records to a log by any of its calls, and to a state by the lent one.
fn fed(words: &mut Words, log: &mut Log, records: &[u64]) {
    let before = log.clone();
    let closed = if records.len() == log.num_vars() as usize && words.below(2) == 0 {
        log.record(records)
    } else {
        log.records(records)
    };
    let new = before.close().is_none();
    assert_eq!(closed, Ok(log.close().filter(|_| new)));
    let arrays = Arrays::new(words, &before);
    assert_eq!(arrays.run(&before, records), Ok(log.state()));
}

/// Rules in arrays of a caller's own, which may be longer than needed, with anything in the rest.
struct Arrays {
    count: usize,
    numbers: [Vec<u32>; 4],
    ops: Vec<u8>,
    operands: Vec<u64>,
}

impl Arrays {
    fn new(words: &mut Words, log: &Log) -> Self {
        let count = log.rules().count();
        let more = [0, 0, 1, 9][words.below(4) as usize];
        let numbers = |number: fn(RankedRule<'_>) -> u32| {
            let mut numbers: Vec<u32> = log.rules().map(number).collect();
            numbers.extend((0..more).map(|_| words.word() as u32));
            numbers
        };
        let numbers = [
            |rule: RankedRule<'_>| rule.rank,
            |rule: RankedRule<'_>| rule.window.least,
            |rule: RankedRule<'_>| rule.window.records,
            |rule: RankedRule<'_>| rule.formula.len() as u32,
        ]
        .map(numbers);
        let places = 64 * count + more;
        let mut ops: Vec<u8> = (0..places).map(|_| words.word() as u8).collect();
        let mut operands: Vec<u64> = (0..places).map(|_| words.word()).collect();
        for (place, rule) in log.rules().enumerate() {
            let formula = rule.formula;
            ops[64 * place..][..formula.len()].copy_from_slice(formula.ops());
            operands[64 * place..][..formula.len()].copy_from_slice(formula.operands());
        }
        Arrays {
            count,
            numbers,
            ops,
            operands,
        }
    }

    fn run(&self, log: &Log, records: &[u64]) -> Result<LogState, Refusal> {
        let [ranks, ms, windows, token_counts] = &self.numbers;
        let rules = Rules {
            count: self.count,
            ranks,
            ms,
            windows,
            token_counts,
            ops: &self.ops,
            operands: &self.operands,
        };
        let (num_vars, width) = (log.num_vars(), log.width());
        let records = Records {
            count: records.len() / num_vars as usize,
            words: records,
        };
        run_log(num_vars, width, rules, log.state(), records)
    }
}

/// Opened anywhere and cut into calls anywhere, empty ones too, a log is that of its last sounding alone.
#[test]
fn opened_and_cut_anywhere() {
    let words = &mut Words(1);
    let (mut closed, mut open, mut later) = (0, 0, 0);
    for turn in 0..400 {
        let (num_vars, width) = (1 + turn % 6, 1 + words.below(64) as u32);
        let count = 1 + words.below(8) as usize;
        let rules = any_rules(words, count, num_vars, width);
        let n = words.below(160) as usize;
        let sparsity = words.below(5) as u32;
        let records = any_records(words, num_vars, n, sparsity);
        let records: Vec<&[u64]> = records.chunks(num_vars as usize).collect();
        let mut log = log_of(num_vars, width, &rules);
        let (mut at, mut opened) = (0, None);
        while at < n {
            if words.below(8) == 0 {
                log.open();
                opened = Some(at);
            }
            let most = [1, 3, 20, 80][words.below(4) as usize];
            let to = n.min(at + words.below(most + 1) as usize);
            fed(words, &mut log, &records[at..to].concat());
            at = to;
            let expected = opened.map(|from| shown(&rules, &records[from..to]));
            assert_eq!(log.state(), expected.unwrap_or_default(), "{rules:?}");
        }
        closed += usize::from(log.close().is_some());
        open += usize::from(log.is_open() && log.close().is_none());
        later += usize::from(log.later() > 0);
    }
    let least = closed.min(open).min(later);
    assert!(least > 40, "{closed} closed, {open} not, {later} with more");
}

/// Of rules that fire on one record the least rank wins, whatever its place; the rank that fires first is not the one that fires later.
#[test]
fn ranks() {
    let always = window(1, 1);
    for turn in 0..8 {
        let rank = |place: u32| 1 + (5 * place + turn) % 8;
        let rules: Vec<Watch> = (0..8)
            .map(|place| Watch::new(rank(place), 0, place, always))
            .collect();
        let mut log = log_of(1, 8, &rules);
        for fire in 1..256u64 {
            let ranks = (0..8).filter(|place| fire >> place & 1 == 1).map(rank);
            let least = ranks.min().expect("one fires");
            log.open();
            assert_eq!(log.records(&[0, fire, 255]), Ok(close(2, least)));
            assert_eq!(told(&log), (3, close(2, least), 1));
        }
    }
}

/// Every rule alone, over records that another rule's window would answer otherwise: each has the window of its place.
#[test]
fn windows_by_place() {
    let words = &mut Words(2);
    let rules = any_rules(words, 8, 2, 16);
    let records = any_records(words, 2, 300, 1);
    let mut log = log_of(2, 16, &rules);
    log.open();
    log.records(&records).expect("whole records");
    for (rule, seen) in log.rules().zip(log.state().windows) {
        let mut alone = Rule::new(2, 16, rule.formula, rule.window).expect("in range");
        alone.feed(&records).expect("whole records");
        assert_eq!(alone.state(), seen);
    }
}

/// Number and count stay at 2^64 - 1 once there.
#[test]
fn counters_at_their_ends() {
    let rules = [Watch::new(5, 0, 0, window(1, 1))];
    let mut log = log_of(1, 8, &rules);
    let after = |log: &mut Log, number, closed_at, later, records: &[u64]| {
        log.resume(LogState {
            open: 1,
            rank: 5 * u32::from(closed_at > 0),
            number,
            closed_at,
            later,
            ..LogState::default()
        });
        log.records(records).expect("whole records");
        told(log)
    };
    let ones = [1; 4];
    let log = &mut log;
    assert_eq!(
        after(log, MOST - 2, 7, MOST - 3, &ones),
        (MOST, close(7, 5), MOST)
    );
    assert_eq!(
        after(log, MOST - 4, 7, MOST - 4, &ones),
        (MOST, close(7, 5), MOST)
    );
    assert_eq!(
        after(log, MOST - 5, 7, MOST - 5, &ones),
        (MOST - 1, close(7, 5), MOST - 1)
    );
    assert_eq!(after(log, MOST, 7, MOST, &ones), (MOST, close(7, 5), MOST));
    assert_eq!(after(log, MOST, 7, 0, &[0, 1, 0]), (MOST, close(7, 5), 1));
    // a close there, by the first record with a firing; the others are later ones
    assert_eq!(after(log, MOST - 1, 0, 0, &ones), (MOST, close(MOST, 5), 3));
    assert_eq!(
        after(log, MOST - 1, 0, MOST, &[0, 1]),
        (MOST, close(MOST, 5), MOST)
    );
    assert_eq!(
        after(log, MOST, 0, 0, &[0, 0, 1]),
        (MOST, close(MOST, 5), 0)
    );
}

/// One record from a state, told apart by what it was before.
#[test]
fn states_that_no_run_gives() {
    let words = &mut Words(3);
    for turn in 0..2000u64 {
        let count = 1 + words.below(8) as usize;
        let rules = any_rules(words, count, 1, 8);
        let mut log = log_of(1, 8, &rules);
        let number = |words: &mut Words| match words.below(4) {
            0 => 0,
            1 => words.word(),
            _ => MOST - words.below(2),
        };
        let before = LogState {
            open: [0, 1, 2, 7, 256, 1 << 31, u32::MAX][words.below(7) as usize],
            rank: words.word() as u32,
            number: number(words),
            closed_at: number(words),
            later: number(words),
            windows: [(); 8].map(|()| words.word()),
        };
        log.resume(before);
        let record = any_records(words, 1, 1, 1);
        assert!(log.records(&[]).is_ok());
        let opened = u32::from(before.open != 0);
        assert_eq!(
            log.state(),
            LogState {
                open: opened,
                ..before
            }
        );
        log.resume(before);
        fed(words, &mut log, &record);
        let expected = if before.open == 0 {
            before
        } else {
            stepped(&rules, before, &record)
        };
        assert_eq!(log.state(), expected, "turn {turn}");
        let fresh = LogState {
            open: 1,
            ..LogState::default()
        };
        assert_eq!(open_log(before), fresh);
        log.open();
        assert_eq!(log.state(), fresh);
    }
}

/// The step of an open log, in numbers that don't end.
fn stepped(rules: &[Watch], before: LogState, record: &[u64]) -> LogState {
    let one_more = |number: u64| u64::try_from(u128::from(number) + 1).unwrap_or(MOST);
    let mut log = before;
    log.open = 1;
    log.number = one_more(before.number);
    let mut fired = Vec::new();
    for (rule, seen) in rules.iter().zip(&mut log.windows) {
        let marks = u128::from(*seen) * 2 + u128::from(rule.is_marked(record));
        let last = (0..rule.window.records).filter(|bit| marks >> bit & 1 == 1);
        if last.count() >= rule.window.least as usize {
            fired.push(rule.rank);
        }
        *seen = marks as u64;
    }
    match fired.into_iter().min() {
        None => {}
        Some(rank) if before.closed_at == 0 => {
            (log.closed_at, log.rank) = (log.number, rank);
        }
        Some(_) => log.later = one_more(before.later),
    }
    log
}

/// Calls of many records, around those that could be taken at once: the first firing anywhere, the last one too.
#[test]
fn many_records_at_once() {
    let rules = burst_and_loss();
    for n in [15, 16, 17, 255, 256, 257, 300, 511, 512, 513, 600, 1000] {
        for first in [1, 2, 16, 17, 255, 256, 257, 511, 512, 513, n - 1] {
            if first >= n {
                continue;
            }
            let mut records = vec![0; n];
            records[first - 1..=first].fill(2);
            records[n - 1] |= 1;
            let mut log = log_of(1, 8, &rules);
            log.open();
            let closed = log.records(&records).expect("whole records");
            assert_eq!(closed, close(first as u64 + 1, 2), "{first} of {n}");
            let all: Vec<&[u64]> = records.chunks(1).collect();
            assert_eq!(log.state(), shown(&rules, &all));
        }
    }
}

/// A long sounding in one call, in a thousand and record by record.
#[test]
fn a_long_sounding() {
    let words = &mut Words(4);
    let rules = any_rules(words, 4, 2, 32);
    let records = any_records(words, 2, 50_000, 3);
    let mut logs = [(); 3].map(|()| log_of(2, 32, &rules));
    logs.iter_mut().for_each(Log::open);
    let [whole, parts, ones] = &mut logs;
    whole.records(&records).expect("whole records");
    for slice in records.chunks(100) {
        parts.records(slice).expect("whole records");
    }
    for record in records.chunks(2) {
        ones.record(record).expect("one record");
    }
    assert!(logs.iter().all(|log| *log == logs[0]));
    assert!(logs[0].later() > 100, "{:?}", logs[0].state());
    assert_eq!(logs[0].number(), 50_000);
}

/// What a log was told, and where it stands.
#[test]
fn told_once() {
    let rules = burst_and_loss();
    let mut log = log_of(2, 16, &rules);
    assert_eq!((log.num_vars(), log.width()), (2, 16));
    let ranked = rules.each_ref().map(Watch::ranked);
    assert!(log.rules().eq(ranked));
    let fresh = log.clone();
    log.open();
    assert_ne!(log, fresh);
    assert_eq!(log.record(&[3]), Err(Refusal::ShortArray));
    assert_eq!(log.record(&[3, 0, 3, 0]), Err(Refusal::ShortArray));
    assert_eq!(log.records(&[3, 0, 3, 0, 3]), Err(Refusal::ShortArray));
    assert_eq!(told(&log), (0, None, 0));
    assert_eq!(log.records(&[3, 0, 3, 0]), Ok(close(2, 1)));
    log.resume(fresh.state());
    assert_eq!(log, fresh);
}
