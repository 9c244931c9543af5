//! The exported functions of crates/simjaldek/src/lib.rt and the structs of crates/simjaldek_abi/src/lib.rt as they are: declarations only, in
//! the order of these files.
//!
//! A slice goes as its pointer and its length. tests/declarations.rs compares these lines with the Rattle sources.

/// An answer by numbers; all zeros beside a refusal.
#[repr(C)]
pub struct Reply {
    pub refusal: u32,
    pub kind: u32,
    pub a: u32,
    pub b: u32,
}

/// A completion by numbers; all zeros beside a refusal.
#[repr(C)]
pub struct ResidualReply {
    pub refusal: u32,
    pub kind: u32,
    pub gate: u32,
    pub a: u32,
    pub b: u32,
}

/// A word; 0 beside a refusal.
#[repr(C)]
pub struct WordReply {
    pub refusal: u32,
    pub word: u64,
}

/// A cost; zeros beside a refusal.
#[repr(C)]
pub struct CostReply {
    pub refusal: u32,
    pub size: u32,
    pub products: u32,
    pub depth: u32,
}

/// A row; zeros beside a refusal.
#[repr(C)]
pub struct RowReply {
    pub refusal: u32,
    pub row: [u64; 16],
}

/// A point's six words.
#[repr(C)]
pub struct PointWords {
    pub words: [u64; 6],
}

/// Sixteen points; zeros beside a refusal.
#[repr(C)]
pub struct PointsReply {
    pub refusal: u32,
    pub points: [PointWords; 16],
}

/// A state of splitmix64, and the word that it gave.
#[repr(C)]
pub struct DrawReply {
    pub state: u64,
    pub word: u64,
}

/// A token: its opcode, 255 for what is none, and its operand.
#[repr(C)]
pub struct TokenReply {
    pub opcode: u32,
    pub operand: u64,
}

/// The length of a text; 0 beside a refusal.
#[repr(C)]
pub struct TextReply {
    pub refusal: u32,
    pub length: usize,
}

/// How many tokens were drawn, and the state handed on; no token and the state as it was beside a refusal.
#[repr(C)]
pub struct FormulaReply {
    pub refusal: u32,
    pub count: usize,
    pub state: u64,
}

/// The state after a run's records; as it was beside a refusal.
#[repr(C)]
pub struct RuleReply {
    pub refusal: u32,
    pub state: u64,
}

/// The closing log of a station's soundings: whether one is open (0 for no, any other number for yes), the rank that closed it (0 for none), the number of its last record, the number of the record
/// that closed it (0 for none), how many later records had a firing, and what each rule's window has seen.
#[repr(C)]
pub struct LogState {
    pub open: u32,
    pub rank: u32,
    pub number: u64,
    pub closed_at: u64,
    pub later: u64,
    pub windows: [u64; 8],
}

/// The log after a run's records, `open` 0 or 1; as it was beside a refusal, bit for bit.
#[repr(C)]
pub struct LogReply {
    pub refusal: u32,
    pub log: LogState,
}

extern "C" {
    pub fn simjaldek_product_search(
        w: u32,
        atom_count: usize,
        atom_lengths: *const u32,
        atom_lengths_len: usize,
        atom_ops: *const u8,
        atom_ops_len: usize,
        atom_operands: *const u64,
        atom_operands_len: usize,
        atom_rows: *const u64,
        atom_rows_len: usize,
        pair_count: usize,
        pairs: *const u32,
        pairs_len: usize,
        pair_rows: *const u64,
        pair_rows_len: usize,
        order: *const u32,
        order_len: usize,
        target: *const u64,
        target_len: usize,
    ) -> Reply;

    pub fn simjaldek_residual_search(
        w: u32,
        atom_count: usize,
        atom_rows: *const u64,
        atom_rows_len: usize,
        pair_count: usize,
        pair_rows: *const u64,
        pair_rows_len: usize,
        target: *const u64,
        target_len: usize,
    ) -> ResidualReply;

    pub fn simjaldek_find_row(
        w: u32,
        atom_count: usize,
        atom_rows: *const u64,
        atom_rows_len: usize,
        row: *const u64,
        row_len: usize,
    ) -> Reply;

    pub fn simjaldek_build_index(
        w: u32,
        atom_count: usize,
        atom_rows: *const u64,
        atom_rows_len: usize,
        limit: usize,
        pairs: *mut u32,
        pairs_len: usize,
        pair_rows: *mut u64,
        pair_rows_len: usize,
        order: *mut u32,
        order_len: usize,
        work: *mut u32,
        work_len: usize,
    ) -> Reply;

    pub fn simjaldek_collect_mul_probe0_candidates(
        w: u32,
        pair_count: usize,
        pair_rows: *const u64,
        pair_rows_len: usize,
        order: *const u32,
        order_len: usize,
        p: u64,
        t: u64,
        candidates: *mut u32,
        candidates_len: usize,
    ) -> Reply;

    pub fn simjaldek_build_bank(
        atom_lengths: *mut u32,
        atom_lengths_len: usize,
        atom_ops: *mut u8,
        atom_ops_len: usize,
        atom_operands: *mut u64,
        atom_operands_len: usize,
        atom_costs: *mut u32,
        atom_costs_len: usize,
        atom_rows: *mut u64,
        atom_rows_len: usize,
        work: *mut u32,
        work_len: usize,
        nv: u32,
        w: u32,
        points: *const u64,
        points_len: usize,
        target: *const u64,
        target_len: usize,
    ) -> Reply;

    pub fn simjaldek_token_at(
        ops: *const u8,
        ops_len: usize,
        operands: *const u64,
        operands_len: usize,
        at: usize,
    ) -> TokenReply;

    pub fn simjaldek_is_formula(
        nv: u32,
        token_count: usize,
        ops: *const u8,
        ops_len: usize,
        operands: *const u64,
        operands_len: usize,
    ) -> u32;

    pub fn simjaldek_eval(
        nv: u32,
        w: u32,
        token_count: usize,
        ops: *const u8,
        ops_len: usize,
        operands: *const u64,
        operands_len: usize,
        words: *const u64,
        words_len: usize,
    ) -> WordReply;

    pub fn simjaldek_compute_cost(
        nv: u32,
        token_count: usize,
        ops: *const u8,
        ops_len: usize,
        operands: *const u64,
        operands_len: usize,
    ) -> CostReply;

    pub fn simjaldek_draw_formula(
        ops: *mut u8,
        ops_len: usize,
        operands: *mut u64,
        operands_len: usize,
        state: u64,
        nv: u32,
        w: u32,
        limit: usize,
    ) -> FormulaReply;

    pub fn simjaldek_run_rule(
        answers: *mut u8,
        answers_len: usize,
        nv: u32,
        w: u32,
        token_count: usize,
        ops: *const u8,
        ops_len: usize,
        operands: *const u64,
        operands_len: usize,
        m: u32,
        window: u32,
        state: u64,
        n: usize,
        records: *const u64,
        records_len: usize,
    ) -> RuleReply;

    pub fn simjaldek_open_log(log: LogState) -> LogState;

    pub fn simjaldek_run_log(
        log: LogState,
        rule_count: usize,
        ranks: *const u32,
        ranks_len: usize,
        ms: *const u32,
        ms_len: usize,
        windows: *const u32,
        windows_len: usize,
        token_counts: *const u32,
        token_counts_len: usize,
        ops: *const u8,
        ops_len: usize,
        operands: *const u64,
        operands_len: usize,
        nv: u32,
        w: u32,
        n: usize,
        records: *const u64,
        records_len: usize,
    ) -> LogReply;

    pub fn simjaldek_make_probe_points(nv: u32, w: u32) -> PointsReply;

    pub fn simjaldek_probe(
        nv: u32,
        w: u32,
        points: *const u64,
        points_len: usize,
        token_count: usize,
        ops: *const u8,
        ops_len: usize,
        operands: *const u64,
        operands_len: usize,
    ) -> RowReply;

    pub fn simjaldek_fingerprint(row: *const u64, row_len: usize) -> WordReply;

    pub fn simjaldek_bitmask(w: u32) -> u64;

    pub fn simjaldek_reduce(x: u64, w: u32) -> u64;

    pub fn simjaldek_wrapping_mul(a: u64, b: u64) -> u64;

    pub fn simjaldek_mod_add(a: u64, b: u64, w: u32) -> u64;

    pub fn simjaldek_mod_sub(a: u64, b: u64, w: u32) -> u64;

    pub fn simjaldek_mod_mul(a: u64, b: u64, w: u32) -> u64;

    pub fn simjaldek_mod_not(v: u64, w: u32) -> u64;

    pub fn simjaldek_mod_neg(v: u64, w: u32) -> u64;

    pub fn simjaldek_mod_inverse_odd(m: u64, k: u32) -> u64;

    pub fn simjaldek_splitmix64(state: u64) -> DrawReply;

    pub fn simjaldek_is_better(
        size: u32,
        products: u32,
        depth: u32,
        size2: u32,
        products2: u32,
        depth2: u32,
    ) -> u32;

    pub fn simjaldek_gate_apply(
        a: *const u64,
        a_len: usize,
        b: *const u64,
        b_len: usize,
        g: u32,
        w: u32,
    ) -> RowReply;

    pub fn simjaldek_gate_residual(
        target: *const u64,
        target_len: usize,
        a: *const u64,
        a_len: usize,
        g: u32,
        w: u32,
    ) -> RowReply;

    pub fn simjaldek_gate_matches(
        a: *const u64,
        a_len: usize,
        b: *const u64,
        b_len: usize,
        target: *const u64,
        target_len: usize,
        g: u32,
        w: u32,
    ) -> Reply;

    pub fn simjaldek_atom_row(
        atom_rows: *const u64,
        atom_rows_len: usize,
        atom_count: usize,
        slot: u32,
    ) -> Reply;

    pub fn simjaldek_write_listing(
        out: *mut u8,
        out_len: usize,
        text: *const u8,
        text_len: usize,
    ) -> TextReply;
}
