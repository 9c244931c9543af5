//! The calls over borrowed slices, for callers with buffers of their own. Every length, count and number may be handed in:
//! what the table has is refused, and then no buffer has changed. Places beyond the counts stay as they were.
//!
//! **Not tested**: that atoms, pairs, points, target and width belong together, that a claimed count is the one that was built, that a
//! lent row is its formula's or its pair's, and that it is below 2^w; that a rule's state is of a run with the same formula and width, or a
//! log's of runs with the same rules in the same places. Such a call answers for the words that it gets. [`Bank`](crate::Bank),
//! [`Index`](crate::Index), [`Rule`](crate::Rule) and [`Log`](crate::Log) keep together what belongs together.
//!
//! A gate's number is 0 And, 1 Or, 2 Xor, 3 Add, 4 Mul; these are not the opcodes of tokens (2 Add, 3 Mul, 4 And, 5 Or, 6 Xor).
//!
//! All unsafe code of this crate stands here: one block for each exported function.

#![allow(unsafe_code)]

use crate::ffi;
use crate::{
    AtomSlot, Completion, Cost, Gate, LogState, PairSlot, Point, Product, Refusal, Row, Token,
    Window, ATOMS_MAX, ROW_WORDS,
};

/// Atoms' rows: `count` atoms, sixteen words each in `rows`.
#[derive(Clone, Copy, Debug)]
pub struct Atoms<'a> {
    /// How many atoms are claimed.
    pub count: usize,
    /// Their rows, one after the other.
    pub rows: &'a [u64],
}

/// Pairs' rows: `count` pairs, sixteen words each in `rows`. For the calls that read no order list.
#[derive(Clone, Copy, Debug)]
pub struct PairRows<'a> {
    /// How many pairs are claimed.
    pub count: usize,
    /// Their rows, one after the other.
    pub rows: &'a [u64],
}

/// Pairs' rows and their order list: `count` pairs.
#[derive(Clone, Copy, Debug)]
pub struct Pairs<'a> {
    /// How many pairs are claimed.
    pub count: usize,
    /// Their rows, one after the other.
    pub rows: &'a [u64],
    /// All pair slots, ascending by (first row word, slot).
    pub order: &'a [u32],
}

impl<'a> Pairs<'a> {
    /// The same pairs without their order list.
    pub fn unordered(self) -> PairRows<'a> {
        PairRows {
            count: self.count,
            rows: self.rows,
        }
    }
}

/// What a product search reads of a bank: `count` atoms, each with its formula and its row.
#[derive(Clone, Copy, Debug)]
pub struct WrittenAtoms<'a> {
    /// How many atoms are claimed.
    pub count: usize,
    /// How many tokens each formula has, 1 to 6.
    pub lengths: &'a [u32],
    /// 6 opcodes for each atom; those past its length are not read.
    pub ops: &'a [u8],
    /// 6 operands for each atom; those past its length are not read.
    pub operands: &'a [u64],
    /// Their rows, one after the other.
    pub rows: &'a [u64],
}

impl<'a> WrittenAtoms<'a> {
    /// The same atoms without their formulas.
    pub fn rows(self) -> Atoms<'a> {
        Atoms {
            count: self.count,
            rows: self.rows,
        }
    }
}

/// What a product search reads of an index: `count` pairs, each with its gate, its atoms and its row, and their order list.
#[derive(Clone, Copy, Debug)]
pub struct WrittenPairs<'a> {
    /// How many pairs are claimed.
    pub count: usize,
    /// Gate, b and c of each pair.
    pub words: &'a [u32],
    /// Their rows, one after the other.
    pub rows: &'a [u64],
    /// All pair slots, ascending by (first row word, slot).
    pub order: &'a [u32],
}

impl<'a> WrittenPairs<'a> {
    /// The same pairs without their gates and atoms.
    pub fn ordered(self) -> Pairs<'a> {
        Pairs {
            count: self.count,
            rows: self.rows,
            order: self.order,
        }
    }
}

/// A formula: the first `count` tokens of two arrays.
#[derive(Clone, Copy, Debug)]
pub struct Tokens<'a> {
    /// How many tokens.
    pub count: usize,
    /// Opcodes.
    pub ops: &'a [u8],
    /// Operands.
    pub operands: &'a [u64],
}

/// Records of a run: `count` records, as many words each in `words` as there are variables.
#[derive(Clone, Copy, Debug)]
pub struct Records<'a> {
    /// How many records are claimed.
    pub count: usize,
    /// Their words, one record after the other.
    pub words: &'a [u64],
}

impl<'a> Records<'a> {
    /// No records.
    pub const NONE: Records<'static> = Records {
        count: 0,
        words: &[],
    };

    /// All records that there are words of; the calls refuse 4 if the last of them lacks some.
    pub(crate) fn all(num_vars: u32, words: &'a [u64]) -> Self {
        let count = words.len().div_ceil(num_vars as usize);
        Records { count, words }
    }
}

/// Ranked rules of a closing log: `count` rules, 64 places for tokens each. A rule's place is that of its window in the log.
#[derive(Clone, Copy, Debug)]
pub struct Rules<'a> {
    /// How many rules are claimed.
    pub count: usize,
    /// The rank of each, 1 to 8.
    pub ranks: &'a [u32],
    /// M of each.
    pub ms: &'a [u32],
    /// W of each.
    pub windows: &'a [u32],
    /// How many tokens the formula of each has.
    pub token_counts: &'a [u32],
    /// 64 opcodes for each; those past its tokens are not read.
    pub ops: &'a [u8],
    /// 64 operands for each; those past its tokens are not read.
    pub operands: &'a [u64],
}

/// The arrays that a bank is built into.
#[derive(Debug)]
pub struct BankArrays<'a> {
    /// Tokens of each atom: 479 places.
    pub lengths: &'a mut [u32],
    /// 6 opcodes for each of 479 atoms; 255 where there is no token.
    pub ops: &'a mut [u8],
    /// 6 operands for each of 479 atoms.
    pub operands: &'a mut [u64],
    /// Size, products and depth of each of 479 atoms.
    pub costs: &'a mut [u32],
    /// 16 words for each of 479 atoms.
    pub rows: &'a mut [u64],
    /// [`work_len`] of 0 places; what is left in them is of no meaning.
    pub work: &'a mut [u32],
}

/// The arrays that an index of at most L pairs is built into.
#[derive(Debug)]
pub struct IndexArrays<'a> {
    /// Gate, b and c of each pair: 3 × L places.
    pub pairs: &'a mut [u32],
    /// 16 words for each of L pairs.
    pub rows: &'a mut [u64],
    /// The order list: L places.
    pub order: &'a mut [u32],
    /// [`work_len`] of L places; what is left in them is of no meaning.
    pub work: &'a mut [u32],
}

/// What an index build answers.
#[derive(Clone, Copy, Debug, PartialEq, Eq)]
pub struct Built {
    /// How many pairs are listed.
    pub pairs: usize,
    /// Whether a new row found no place.
    pub cut: bool,
}

/// What a drawn formula is told by.
#[derive(Clone, Copy, Debug, PartialEq, Eq)]
pub struct Drawn {
    /// How many tokens.
    pub count: usize,
    /// The state that the next formula is drawn from.
    pub state: u64,
}

/// How many bytes a buffer for a listing has: the longest listing fits.
pub const TEXT_MAX: usize = 131_072;

/// The places of a work area for a limit L (0 for a bank build): 4 × (L + 479).
pub fn work_len(limit: usize) -> usize {
    limit.saturating_add(ATOMS_MAX).saturating_mul(4)
}

/// An answer, unless its number is one of the table.
#[inline]
fn unless_refused<T>(refusal: u32, answer: T) -> Result<T, Refusal> {
    match refusal {
        0 => Ok(answer),
        number => Err(Refusal::from_number(number)),
    }
}

/// The cheapest product, of two atoms or of an atom and a pair, that is the target: by the cost of the whole formula written out, and the
/// first in the order of the search among equals (two atoms before an atom and a pair). Whether a product fits goes by the rows, what it
/// costs by the formulas, gates and atom slots, as they are lent. It has the target's words at the points and may differ elsewhere. "Nothing"
/// is certain only with a whole index of these very atoms at this width. Refuses 2, 4, 5, 6 for an atom of 0 or over 6 tokens or whose
/// tokens are no formula over six variables, 7 also for a pair with a gate above 4 or an atom slot not below the count, 8.
pub fn product_search(
    width: u32,
    atoms: WrittenAtoms<'_>,
    pairs: WrittenPairs<'_>,
    target: &[u64],
) -> Result<Product, Refusal> {
    // SAFETY: each pointer comes with its own slice's length; the function reads within these lengths and keeps no pointer.
    let reply = unsafe {
        ffi::simjaldek_product_search(
            width,
            atoms.count,
            atoms.lengths.as_ptr(),
            atoms.lengths.len(),
            atoms.ops.as_ptr(),
            atoms.ops.len(),
            atoms.operands.as_ptr(),
            atoms.operands.len(),
            atoms.rows.as_ptr(),
            atoms.rows.len(),
            pairs.count,
            pairs.words.as_ptr(),
            pairs.words.len(),
            pairs.rows.as_ptr(),
            pairs.rows.len(),
            pairs.order.as_ptr(),
            pairs.order.len(),
            target.as_ptr(),
            target.len(),
        )
    };
    let product = match reply.kind {
        1 => Product::Atoms(AtomSlot(reply.a), AtomSlot(reply.b)),
        2 => Product::AtomPair(AtomSlot(reply.a), PairSlot(reply.b)),
        0 => Product::Nothing,
        kind => panic!("{kind} is no kind of product: an archive of another commit?"),
    };
    unless_refused(reply.refusal, product)
}

/// The first atom that an atom or a pair completes to the target, under Xor, else under Add: atoms ascending, for each first the atoms,
/// then the pairs, by slot; in the order of the search, not the cheapest. A row completes an atom where it is, word for word, the atom's
/// [`gate_residual`]: the xor, or the sum, of the two modulo 2^w is the target, on whatever rows are lent. That residual is below 2^w: a
/// lent row that isn't can be completed, and completes none. What is found has the target's words at the points and may differ elsewhere.
/// "Nothing" is certain only with a whole index of these very atoms at this width, and where the atoms are a bank build's, or their rows
/// below 2^w, or one of them 0 modulo 2^w. Refuses 2, 4, 5, 7.
pub fn residual_search(
    width: u32,
    atoms: Atoms<'_>,
    pairs: PairRows<'_>,
    target: &[u64],
) -> Result<Completion, Refusal> {
    // SAFETY: each pointer comes with its own slice's length; the function reads within these lengths and keeps no pointer.
    let reply = unsafe {
        ffi::simjaldek_residual_search(
            width,
            atoms.count,
            atoms.rows.as_ptr(),
            atoms.rows.len(),
            pairs.count,
            pairs.rows.as_ptr(),
            pairs.rows.len(),
            target.as_ptr(),
            target.len(),
        )
    };
    let completion = match reply.kind {
        1 => Completion::Atoms(outer_gate(reply.gate), AtomSlot(reply.a), AtomSlot(reply.b)),
        2 => Completion::AtomPair(outer_gate(reply.gate), AtomSlot(reply.a), PairSlot(reply.b)),
        0 => Completion::Nothing,
        kind => panic!("{kind} is no kind of completion: an archive of another commit?"),
    };
    unless_refused(reply.refusal, completion)
}

/// The outer gate of a completion.
fn outer_gate(number: u32) -> Gate {
    Gate::from_number(number)
        .filter(|gate| matches!(gate, Gate::Xor | Gate::Add))
        .unwrap_or_else(|| panic!("{number} is no outer gate: an archive of another commit?"))
}

/// The least slot whose row is `row`, or none. Refuses 2, 4, 5, 7.
pub fn find_row(width: u32, atoms: Atoms<'_>, row: &[u64]) -> Result<Option<AtomSlot>, Refusal> {
    // SAFETY: each pointer comes with its own slice's length; the function reads within these lengths and keeps no pointer.
    let reply = unsafe {
        ffi::simjaldek_find_row(
            width,
            atoms.count,
            atoms.rows.as_ptr(),
            atoms.rows.len(),
            row.as_ptr(),
            row.len(),
        )
    };
    let slot = (reply.kind == 1).then_some(AtomSlot(reply.a));
    unless_refused(reply.refusal, slot)
}

/// Lists the pairs of the atoms' rows, at most `limit`, with their rows and the order list. A pair's row is its gate's modulo 2^w, also where
/// atoms' rows reach 2^w. Refuses 2, 3, 4, 7.
pub fn build_index(
    width: u32,
    atoms: Atoms<'_>,
    limit: usize,
    arrays: IndexArrays<'_>,
) -> Result<Built, Refusal> {
    // SAFETY: each pointer comes with its own slice's length; the function stays within these lengths and keeps no pointer. The
    // written slices are `&mut`, so they overlap nothing.
    let reply = unsafe {
        ffi::simjaldek_build_index(
            width,
            atoms.count,
            atoms.rows.as_ptr(),
            atoms.rows.len(),
            limit,
            arrays.pairs.as_mut_ptr(),
            arrays.pairs.len(),
            arrays.rows.as_mut_ptr(),
            arrays.rows.len(),
            arrays.order.as_mut_ptr(),
            arrays.order.len(),
            arrays.work.as_mut_ptr(),
            arrays.work.len(),
        )
    };
    let built = Built {
        pairs: reply.a as usize,
        cut: reply.b == 1,
    };
    unless_refused(reply.refusal, built)
}

/// Writes the slots whose first word f has p × f = t modulo 2^w into `list`, in order-list order, and gives their count. `None` is "not
/// used" and writes nothing: p and t are 0, or there are more than 256 solutions, and any pair may fit; `Some(0)` says that none does.
/// `list` has a place for each pair. Refuses 2, 4, 5, 7, 8.
pub fn candidates(
    width: u32,
    pairs: Pairs<'_>,
    p: u64,
    t: u64,
    list: &mut [u32],
) -> Result<Option<usize>, Refusal> {
    // SAFETY: each pointer comes with its own slice's length; the function stays within these lengths and keeps no pointer. The
    // written slice is `&mut`, so it overlaps nothing.
    let reply = unsafe {
        ffi::simjaldek_collect_mul_probe0_candidates(
            width,
            pairs.count,
            pairs.rows.as_ptr(),
            pairs.rows.len(),
            pairs.order.as_ptr(),
            pairs.order.len(),
            p,
            t,
            list.as_mut_ptr(),
            list.len(),
        )
    };
    let count = (reply.kind == 1).then_some(reply.a as usize);
    unless_refused(reply.refusal, count)
}

/// Builds a bank over sixteen points of six words each, with the target's seeds: the count of atoms. Refuses 1, 2, 4, 5.
pub fn build_bank(
    num_vars: u32,
    width: u32,
    points: &[u64],
    target: &[u64],
    arrays: BankArrays<'_>,
) -> Result<usize, Refusal> {
    // SAFETY: each pointer comes with its own slice's length; the function stays within these lengths and keeps no pointer. The
    // written slices are `&mut`, so they overlap nothing.
    let reply = unsafe {
        ffi::simjaldek_build_bank(
            arrays.lengths.as_mut_ptr(),
            arrays.lengths.len(),
            arrays.ops.as_mut_ptr(),
            arrays.ops.len(),
            arrays.operands.as_mut_ptr(),
            arrays.operands.len(),
            arrays.costs.as_mut_ptr(),
            arrays.costs.len(),
            arrays.rows.as_mut_ptr(),
            arrays.rows.len(),
            arrays.work.as_mut_ptr(),
            arrays.work.len(),
            num_vars,
            width,
            points.as_ptr(),
            points.len(),
            target.as_ptr(),
            target.len(),
        )
    };
    unless_refused(reply.refusal, reply.a as usize)
}

/// The token at a place, from 0, of two arrays; [`Token::Bad`] with opcode 255 for what is none, also past the end of either.
pub fn token_at(ops: &[u8], operands: &[u64], at: usize) -> Token {
    // SAFETY: each pointer comes with its own slice's length; the function reads within these lengths and keeps no pointer.
    let reply = unsafe {
        ffi::simjaldek_token_at(
            ops.as_ptr(),
            ops.len(),
            operands.as_ptr(),
            operands.len(),
            at,
        )
    };
    Token::of(reply.opcode as u8, reply.operand)
}

/// Whether the tokens are a formula over so many variables: what refusal 6 tests. Any array may be too short.
pub fn is_formula(num_vars: u32, formula: Tokens<'_>) -> bool {
    // SAFETY: each pointer comes with its own slice's length; the function reads within these lengths and keeps no pointer.
    let mark = unsafe {
        ffi::simjaldek_is_formula(
            num_vars,
            formula.count,
            formula.ops.as_ptr(),
            formula.ops.len(),
            formula.operands.as_ptr(),
            formula.operands.len(),
        )
    };
    mark == 1
}

/// The value of a formula modulo 2^w, with a word for each variable. Refuses 1, 2, 4, 6.
pub fn evaluate(
    num_vars: u32,
    width: u32,
    formula: Tokens<'_>,
    words: &[u64],
) -> Result<u64, Refusal> {
    // SAFETY: each pointer comes with its own slice's length; the function reads within these lengths and keeps no pointer.
    let reply = unsafe {
        ffi::simjaldek_eval(
            num_vars,
            width,
            formula.count,
            formula.ops.as_ptr(),
            formula.ops.len(),
            formula.operands.as_ptr(),
            formula.operands.len(),
            words.as_ptr(),
            words.len(),
        )
    };
    unless_refused(reply.refusal, reply.word)
}

/// The cost of a formula. Refuses 1, 4, 6.
pub fn compute_cost(num_vars: u32, formula: Tokens<'_>) -> Result<Cost, Refusal> {
    // SAFETY: each pointer comes with its own slice's length; the function reads within these lengths and keeps no pointer.
    let reply = unsafe {
        ffi::simjaldek_compute_cost(
            num_vars,
            formula.count,
            formula.ops.as_ptr(),
            formula.ops.len(),
            formula.operands.as_ptr(),
            formula.operands.len(),
        )
    };
    let cost = Cost {
        size: reply.size,
        products: reply.products,
        depth: reply.depth,
    };
    unless_refused(reply.refusal, cost)
}

/// Draws the tokens of a formula from a state of splitmix64 into the first places of two arrays, at most `limit`, its constants below 2^w;
/// both arrays have a place for each of `limit` tokens. [`is_formula`] holds of what is drawn, and the same inputs draw the same. A load of
/// n formulas is n calls, each from the state that the one before it gave; [`Load`](crate::Load) makes them. Refuses 1, 2, 4, and 6 for a
/// limit that isn't 1 to 64.
// some 40 ns for a short formula: through a function between it is 5 ns more
#[inline]
pub fn draw_formula(
    state: u64,
    num_vars: u32,
    width: u32,
    limit: usize,
    ops: &mut [u8],
    operands: &mut [u64],
) -> Result<Drawn, Refusal> {
    // SAFETY: each pointer comes with its own slice's length; the function stays within these lengths and keeps no pointer. The
    // written slices are `&mut`, so they overlap nothing.
    let reply = unsafe {
        ffi::simjaldek_draw_formula(
            ops.as_mut_ptr(),
            ops.len(),
            operands.as_mut_ptr(),
            operands.len(),
            state,
            num_vars,
            width,
            limit,
        )
    };
    let drawn = Drawn {
        count: reply.count,
        state: reply.state,
    };
    unless_refused(reply.refusal, drawn)
}

/// Answers each record by a byte in the first places of `answers`: 1 where in at least `window.least` of the last `window.records` records,
/// the present one included, the formula's value modulo 2^w was nonzero, else 0. The words of records may be any. Of the records before
/// these the state tells: its bit i is 1 where the formula was nonzero i records before the last. Any word is a state; a run begins with 0,
/// the empty one: nothing was nonzero before its first record. Gives the state that the next records go on from, so that a run has the same
/// answers wherever it is cut into calls; [`Rule`](crate::Rule) keeps it. Places past the answers stay as they were. Refuses 1, 2, 4, 6, and
/// 10 for a window that isn't one; a run then stands where it stood.
// records may come one by one: no function between
#[inline]
pub fn run_rule(
    num_vars: u32,
    width: u32,
    formula: Tokens<'_>,
    window: Window,
    state: u64,
    records: Records<'_>,
    answers: &mut [u8],
) -> Result<u64, Refusal> {
    // SAFETY: each pointer comes with its own slice's length; the function stays within these lengths and keeps no pointer. The
    // written slice is `&mut`, so it overlaps nothing.
    let reply = unsafe {
        ffi::simjaldek_run_rule(
            answers.as_mut_ptr(),
            answers.len(),
            num_vars,
            width,
            formula.count,
            formula.ops.as_ptr(),
            formula.ops.len(),
            formula.operands.as_ptr(),
            formula.operands.len(),
            window.least,
            window.records,
            state,
            records.count,
            records.words.as_ptr(),
            records.words.len(),
        )
    };
    // a refused call hands the state back as it was
    debug_assert!(reply.refusal == 0 || reply.state == state);
    unless_refused(reply.refusal, reply.state)
}

/// The log with a new sounding: open, no record, no close, no later firing, and the windows afresh, whatever it was. Refuses nothing.
#[inline]
pub fn open_log(log: LogState) -> LogState {
    // SAFETY: the function takes numbers only.
    from_declared(unsafe { ffi::simjaldek_open_log(declared(log)) })
}

/// The log after these records: of the open sounding each is numbered, and every rule is fed it as [`run_rule`] does, with the window of its
/// place. The first record at which some rule fires closes the sounding, with its number and the least rank that fires; a later one with a
/// firing is counted, once however many fire. Number and count stay at 2^64 - 1. Where no sounding is open nothing changes, and windows past
/// the rules never do. The words of records may be any, and so may the log, so that a run is the same wherever it is cut into calls;
/// [`Log`](crate::Log) keeps it. Refuses 1, 2, 4, 6, 10, and 11 for no rule, more than eight, a rank that isn't 1 to 8 or two equal ranks: over
/// all claimed rules, also without a record or a sounding; the log then is what it was.
// records may come one by one: no function between
#[inline]
pub fn run_log(
    num_vars: u32,
    width: u32,
    rules: Rules<'_>,
    log: LogState,
    records: Records<'_>,
) -> Result<LogState, Refusal> {
    // SAFETY: each pointer comes with its own slice's length; the function reads within these lengths and keeps no pointer.
    let reply = unsafe {
        ffi::simjaldek_run_log(
            declared(log),
            rules.count,
            rules.ranks.as_ptr(),
            rules.ranks.len(),
            rules.ms.as_ptr(),
            rules.ms.len(),
            rules.windows.as_ptr(),
            rules.windows.len(),
            rules.token_counts.as_ptr(),
            rules.token_counts.len(),
            rules.ops.as_ptr(),
            rules.ops.len(),
            rules.operands.as_ptr(),
            rules.operands.len(),
            num_vars,
            width,
            records.count,
            records.words.as_ptr(),
            records.words.len(),
        )
    };
    let next = from_declared(reply.log);
    // a refused call hands the log back as it was
    debug_assert!(reply.refusal == 0 || next == log);
    unless_refused(reply.refusal, next)
}

/// A log as the library takes it.
#[inline]
fn declared(log: LogState) -> ffi::LogState {
    ffi::LogState {
        open: log.open,
        rank: log.rank,
        number: log.number,
        closed_at: log.closed_at,
        later: log.later,
        windows: log.windows,
    }
}

/// A log that the library hands back.
#[inline]
fn from_declared(log: ffi::LogState) -> LogState {
    LogState {
        open: log.open,
        rank: log.rank,
        number: log.number,
        closed_at: log.closed_at,
        later: log.later,
        windows: log.windows,
    }
}

/// The sixteen points that splitmix64 gives. Refuses 1, 2.
pub fn probe_points(num_vars: u32, width: u32) -> Result<[Point; 16], Refusal> {
    // SAFETY: the function takes numbers only.
    let reply = unsafe { ffi::simjaldek_make_probe_points(num_vars, width) };
    unless_refused(reply.refusal, reply.points.map(|point| point.words))
}

/// The row of a formula: its values at sixteen points of six words each, whatever the count of variables. The words may be any; those
/// past the count are ignored. Refuses 1, 2, 4, 6.
pub fn probe_row(
    num_vars: u32,
    width: u32,
    points: &[u64],
    formula: Tokens<'_>,
) -> Result<Row, Refusal> {
    // SAFETY: each pointer comes with its own slice's length; the function reads within these lengths and keeps no pointer.
    let reply = unsafe {
        ffi::simjaldek_probe(
            num_vars,
            width,
            points.as_ptr(),
            points.len(),
            formula.count,
            formula.ops.as_ptr(),
            formula.ops.len(),
            formula.operands.as_ptr(),
            formula.operands.len(),
        )
    };
    unless_refused(reply.refusal, reply.row)
}

/// A number of a row's words. Equal rows have equal fingerprints; equal fingerprints don't prove equal rows. Refuses 4.
pub fn fingerprint(row: &[u64]) -> Result<u64, Refusal> {
    // SAFETY: the pointer comes with its slice's length; the function reads within it and keeps no pointer.
    let reply = unsafe { ffi::simjaldek_fingerprint(row.as_ptr(), row.len()) };
    unless_refused(reply.refusal, reply.word)
}

/// The w lowest bits set: 2^w - 1, all ones from 64 up.
pub fn bitmask(width: u32) -> u64 {
    // SAFETY: the function takes a number only.
    unsafe { ffi::simjaldek_bitmask(width) }
}

/// x modulo 2^w; from 64 up w counts as 64, here and in the sums below.
pub fn reduce(x: u64, width: u32) -> u64 {
    // SAFETY: the function takes numbers only.
    unsafe { ffi::simjaldek_reduce(x, width) }
}

/// a × b modulo 2^64.
pub fn wrapping_mul(a: u64, b: u64) -> u64 {
    // SAFETY: the function takes numbers only.
    unsafe { ffi::simjaldek_wrapping_mul(a, b) }
}

/// a + b modulo 2^w.
pub fn mod_add(a: u64, b: u64, width: u32) -> u64 {
    // SAFETY: the function takes numbers only.
    unsafe { ffi::simjaldek_mod_add(a, b, width) }
}

/// a - b modulo 2^w.
pub fn mod_sub(a: u64, b: u64, width: u32) -> u64 {
    // SAFETY: the function takes numbers only.
    unsafe { ffi::simjaldek_mod_sub(a, b, width) }
}

/// a × b modulo 2^w.
pub fn mod_mul(a: u64, b: u64, width: u32) -> u64 {
    // SAFETY: the function takes numbers only.
    unsafe { ffi::simjaldek_mod_mul(a, b, width) }
}

/// Each of the w bits turned: 2^w - 1 - v, v reduced first.
pub fn mod_not(v: u64, width: u32) -> u64 {
    // SAFETY: the function takes numbers only.
    unsafe { ffi::simjaldek_mod_not(v, width) }
}

/// 0 - v modulo 2^w.
pub fn mod_neg(v: u64, width: u32) -> u64 {
    // SAFETY: the function takes numbers only.
    unsafe { ffi::simjaldek_mod_neg(v, width) }
}

/// The number below 2^k whose product with m is 1 modulo 2^k; an even m has none, and gets 0. From 64 up k counts as 64.
pub fn mod_inverse_odd(m: u64, k: u32) -> u64 {
    // SAFETY: the function takes numbers only.
    unsafe { ffi::simjaldek_mod_inverse_odd(m, k) }
}

/// One step of splitmix64: the next state, and its word.
pub fn splitmix64(state: u64) -> (u64, u64) {
    // SAFETY: the function takes a number only.
    let draw = unsafe { ffi::simjaldek_splitmix64(state) };
    (draw.state, draw.word)
}

/// Whether the first cost is strictly smaller in (size, products, depth); the first difference decides.
pub fn is_better(cost: Cost, other: Cost) -> bool {
    // SAFETY: the function takes numbers only.
    let mark = unsafe {
        ffi::simjaldek_is_better(
            cost.size,
            cost.products,
            cost.depth,
            other.size,
            other.products,
            other.depth,
        )
    };
    mark == 1
}

/// The gate of this number in each of sixteen places, modulo 2^w; the words of `a` and `b` may be any. Refuses 2, 4, and 6 for a number
/// above 4.
pub fn gate_apply(a: &[u64], b: &[u64], gate: u32, width: u32) -> Result<Row, Refusal> {
    // SAFETY: each pointer comes with its own slice's length; the function reads within these lengths and keeps no pointer.
    let reply =
        unsafe { ffi::simjaldek_gate_apply(a.as_ptr(), a.len(), b.as_ptr(), b.len(), gate, width) };
    unless_refused(reply.refusal, reply.row)
}

/// What completes `a` to the target under Xor and Add, modulo 2^w; zeros under the other gates. The words may be any: the gate of `a` and
/// this row is the target modulo 2^w. Refuses 2, 4, and 6 for a number above 4.
pub fn gate_residual(target: &[u64], a: &[u64], gate: u32, width: u32) -> Result<Row, Refusal> {
    // SAFETY: each pointer comes with its own slice's length; the function reads within these lengths and keeps no pointer.
    let reply = unsafe {
        ffi::simjaldek_gate_residual(
            target.as_ptr(),
            target.len(),
            a.as_ptr(),
            a.len(),
            gate,
            width,
        )
    };
    unless_refused(reply.refusal, reply.row)
}

/// Whether the gate, modulo 2^w, gives the target in all sixteen places. The target's words are compared as they are: one that isn't below
/// 2^w never matches. Refuses 2, 4, and 6 for a number above 4.
pub fn gate_matches(
    a: &[u64],
    b: &[u64],
    target: &[u64],
    gate: u32,
    width: u32,
) -> Result<bool, Refusal> {
    // SAFETY: each pointer comes with its own slice's length; the function reads within these lengths and keeps no pointer.
    let reply = unsafe {
        ffi::simjaldek_gate_matches(
            a.as_ptr(),
            a.len(),
            b.as_ptr(),
            b.len(),
            target.as_ptr(),
            target.len(),
            gate,
            width,
        )
    };
    unless_refused(reply.refusal, reply.kind == 1)
}

/// The part of the rows that is one atom's. Refuses 4, 7.
pub fn atom_row(atoms: Atoms<'_>, slot: AtomSlot) -> Result<&[u64], Refusal> {
    // SAFETY: the pointer comes with its slice's length; the function reads at most the length and keeps no pointer.
    let reply = unsafe {
        ffi::simjaldek_atom_row(atoms.rows.as_ptr(), atoms.rows.len(), atoms.count, slot.0)
    };
    let place = unless_refused(reply.refusal, reply.a as usize)?;
    Ok(&atoms.rows[place..place + ROW_WORDS])
}

/// Writes what the listing program answers to a whole text into `out`, and gives its length; what the text is refused for is written
/// there too. Refuses 4 for a buffer of less than [`TEXT_MAX`] bytes.
pub fn write_listing(text: &[u8], out: &mut [u8]) -> Result<usize, Refusal> {
    // SAFETY: each pointer comes with its own slice's length; the function stays within these lengths and keeps no pointer. The
    // written slice is `&mut`, so it overlaps nothing.
    let reply = unsafe {
        ffi::simjaldek_write_listing(out.as_mut_ptr(), out.len(), text.as_ptr(), text.len())
    };
    unless_refused(reply.refusal, reply.length)
}
