/* The static library of Simjaldek, for C programs; docs/CALLS.md says what each call needs, refuses and answers.
   Made from the exports of crates/simjaldek and crates/simjaldek_abi by rust/simjaldek/tests/header.rs.

   What an answer means: a product, or a completion by xor or sum, has the target's words at the sixteen points and may
   differ elsewhere, so compare the formulas beyond the points. A product is the cheapest that fits of two atoms and of an atom
   and a listed pair, by the cost of the whole formula written out, and among equals the first in the order of the search; a
   completion is the first that fits, not the cheapest. "Nothing" is certain only with a whole index of these very atoms at this
   width, for completions only where a bank build left the atoms, or their rows are below 2^w, or one of them is 0 modulo 2^w.
   That arrays, counts and widths belong together is not tested.

   A rule's run begins with state 0, a closing log as zeros; each call after the first is handed the state, or the log, that
   the one before it gave.

   Opcodes: 0 constant, 1 variable, 2 Add, 3 Mul, 4 And, 5 Or, 6 Xor, 7 Not, 8 Neg. Gates have numbers of their own: 0 And,
   1 Or, 2 Xor, 3 Add, 4 Mul.

   An array goes as its first element's address and its length. An array that is written must not overlap another.
   `refusal`, where a reply has it, is 0 for an answer, else why there is none: 1 variable count, 2 width, 3 limit, 4 array
   too short, 5 word not below 2^w, 6 no formula, no gate or no token limit, 7 too many atoms or pairs, a slot past the count
   or a pair's gate above 4, 8 order list, 10 m not 1 to the window or the window not 1 to 64, 11 no rule, more than eight, a
   rank not 1 to 8 or two equal ranks. Beside a refusal no array was written, and the rest of the reply is zeros, but for a
   state or a log that was handed in: it is as it was. */
#ifndef SIMJALDEK_H
#define SIMJALDEK_H

#include <stddef.h>
#include <stdint.h>

#ifdef __cplusplus
extern "C" {
#endif

/* An answer by numbers; all zeros beside a refusal. */
struct simjaldek_reply {
    uint32_t refusal;
    uint32_t kind;
    uint32_t a;
    uint32_t b;
};

/* A completion by numbers; all zeros beside a refusal. */
struct simjaldek_residual_reply {
    uint32_t refusal;
    uint32_t kind;
    uint32_t gate;
    uint32_t a;
    uint32_t b;
};

/* A word; 0 beside a refusal. */
struct simjaldek_word_reply {
    uint32_t refusal;
    uint64_t word;
};

/* A cost; zeros beside a refusal. */
struct simjaldek_cost_reply {
    uint32_t refusal;
    uint32_t size;
    uint32_t products;
    uint32_t depth;
};

/* A row; zeros beside a refusal. */
struct simjaldek_row_reply {
    uint32_t refusal;
    uint64_t row[16];
};

/* A point's six words. */
struct simjaldek_point_words {
    uint64_t words[6];
};

/* Sixteen points; zeros beside a refusal. */
struct simjaldek_points_reply {
    uint32_t refusal;
    struct simjaldek_point_words points[16];
};

/* A state of splitmix64, and the word that it gave. */
struct simjaldek_draw_reply {
    uint64_t state;
    uint64_t word;
};

/* A token: its opcode, 255 for what is none, and its operand. */
struct simjaldek_token_reply {
    uint32_t opcode;
    uint64_t operand;
};

/* The length of a text; 0 beside a refusal. */
struct simjaldek_text_reply {
    uint32_t refusal;
    size_t length;
};

/* How many tokens were drawn, and the state handed on; no token and the state as it was beside a refusal. */
struct simjaldek_formula_reply {
    uint32_t refusal;
    size_t count;
    uint64_t state;
};

/* The state after a run's records; as it was beside a refusal. */
struct simjaldek_rule_reply {
    uint32_t refusal;
    uint64_t state;
};

/* The closing log of a station's soundings: whether one is open (0 for no, any other number for yes), the rank that closed it (0 for none), the number of its last record, the number of the record
   that closed it (0 for none), how many later records had a firing, and what each rule's window has seen. */
struct simjaldek_log_state {
    uint32_t open;
    uint32_t rank;
    uint64_t number;
    uint64_t closed_at;
    uint64_t later;
    uint64_t windows[8];
};

/* The log after a run's records, `open` 0 or 1; as it was beside a refusal, bit for bit. */
struct simjaldek_log_reply {
    uint32_t refusal;
    struct simjaldek_log_state log;
};

/* `search_product::product_search`: kind 0 nothing, 1 the atoms a and b, 2 the atom a and the pair b, the cheapest product. Refuses 2, 4, 5, 6, 7, 8. */
struct simjaldek_reply simjaldek_product_search(
    uint32_t w,
    size_t atom_count,
    const uint32_t *atom_lengths, size_t atom_lengths_len,
    const uint8_t *atom_ops, size_t atom_ops_len,
    const uint64_t *atom_operands, size_t atom_operands_len,
    const uint64_t *atom_rows, size_t atom_rows_len,
    size_t pair_count,
    const uint32_t *pairs, size_t pairs_len,
    const uint64_t *pair_rows, size_t pair_rows_len,
    const uint32_t *order, size_t order_len,
    const uint64_t *target, size_t target_len);

/* `search_residual::residual_search`: kind 0 nothing, 1 the atoms a and b, 2 the atom a and the pair b; `gate` is the outer gate's number, 2 Xor or 3 Add. Refuses 2, 4, 5, 7. */
struct simjaldek_residual_reply simjaldek_residual_search(
    uint32_t w,
    size_t atom_count,
    const uint64_t *atom_rows, size_t atom_rows_len,
    size_t pair_count,
    const uint64_t *pair_rows, size_t pair_rows_len,
    const uint64_t *target, size_t target_len);

/* `bank_lookup::find_row`: kind 1 the slot a, 0 none. Refuses 2, 4, 5, 7. */
struct simjaldek_reply simjaldek_find_row(
    uint32_t w,
    size_t atom_count,
    const uint64_t *atom_rows, size_t atom_rows_len,
    const uint64_t *row, size_t row_len);

/* `index::build_index`: a pairs, and b 1 where the build was cut. Refuses 2, 3, 4, 7. */
struct simjaldek_reply simjaldek_build_index(
    uint32_t w,
    size_t atom_count,
    const uint64_t *atom_rows, size_t atom_rows_len,
    size_t limit,
    uint32_t *pairs, size_t pairs_len,
    uint64_t *pair_rows, size_t pair_rows_len,
    uint32_t *order, size_t order_len,
    uint32_t *work, size_t work_len);

/* `search_candidates::collect_mul_probe0_candidates`: kind 1 with a candidates in the list, 0 "not used". Refuses 2, 4, 5, 7, 8. */
struct simjaldek_reply simjaldek_collect_mul_probe0_candidates(
    uint32_t w,
    size_t pair_count,
    const uint64_t *pair_rows, size_t pair_rows_len,
    const uint32_t *order, size_t order_len,
    uint64_t p,
    uint64_t t,
    uint32_t *candidates, size_t candidates_len);

/* `bank::build_bank`, with sixteen points of six words each: a atoms. Refuses 1, 2, 4, 5. */
struct simjaldek_reply simjaldek_build_bank(
    uint32_t *atom_lengths, size_t atom_lengths_len,
    uint8_t *atom_ops, size_t atom_ops_len,
    uint64_t *atom_operands, size_t atom_operands_len,
    uint32_t *atom_costs, size_t atom_costs_len,
    uint64_t *atom_rows, size_t atom_rows_len,
    uint32_t *work, size_t work_len,
    uint32_t nv,
    uint32_t w,
    const uint64_t *points, size_t points_len,
    const uint64_t *target, size_t target_len);

/* `expr::token_at`: the token's opcode, 255 for none, and its operand. */
struct simjaldek_token_reply simjaldek_token_at(
    const uint8_t *ops, size_t ops_len,
    const uint64_t *operands, size_t operands_len,
    size_t at);

/* `expr::is_formula`: 1 where it is one, else 0. */
uint32_t simjaldek_is_formula(
    uint32_t nv,
    size_t token_count,
    const uint8_t *ops, size_t ops_len,
    const uint64_t *operands, size_t operands_len);

/* `expr_eval::eval`. Refuses 1, 2, 4, 6. */
struct simjaldek_word_reply simjaldek_eval(
    uint32_t nv,
    uint32_t w,
    size_t token_count,
    const uint8_t *ops, size_t ops_len,
    const uint64_t *operands, size_t operands_len,
    const uint64_t *words, size_t words_len);

/* `expr_cost::compute_cost`. Refuses 1, 4, 6. */
struct simjaldek_cost_reply simjaldek_compute_cost(
    uint32_t nv,
    size_t token_count,
    const uint8_t *ops, size_t ops_len,
    const uint64_t *operands, size_t operands_len);

/* `load_draw::draw_formula`: the tokens drawn stand in the arrays. Refuses 1, 2, 4, and 6 for a limit that isn't 1 to 64. */
struct simjaldek_formula_reply simjaldek_draw_formula(
    uint8_t *ops, size_t ops_len,
    uint64_t *operands, size_t operands_len,
    uint64_t state,
    uint32_t nv,
    uint32_t w,
    size_t limit);

/* `rule_run::run_rule`: the answers stand in the array. Refuses 1, 2, 4, 6, and 10 for a window that isn't 1 to 64 or an m that isn't 1 to the window. */
struct simjaldek_rule_reply simjaldek_run_rule(
    uint8_t *answers, size_t answers_len,
    uint32_t nv,
    uint32_t w,
    size_t token_count,
    const uint8_t *ops, size_t ops_len,
    const uint64_t *operands, size_t operands_len,
    uint32_t m,
    uint32_t window,
    uint64_t state,
    size_t n,
    const uint64_t *records, size_t records_len);

/* `log_run::open_log`: the log of a new sounding, without a close and with fresh windows. */
struct simjaldek_log_state simjaldek_open_log(
    struct simjaldek_log_state log);

/* `log_run::run_log`: of rule i are the values at place i, and the opcodes and operands from place 64 i on. Refuses 1, 2, 4, 6 for a formula of any rule, 10 for a window that isn't 1 to 64 or
   an m that isn't 1 to the window, and 11 for no rule, more than eight, a rank that isn't 1 to 8 or two equal ranks. */
struct simjaldek_log_reply simjaldek_run_log(
    struct simjaldek_log_state log,
    size_t rule_count,
    const uint32_t *ranks, size_t ranks_len,
    const uint32_t *ms, size_t ms_len,
    const uint32_t *windows, size_t windows_len,
    const uint32_t *token_counts, size_t token_counts_len,
    const uint8_t *ops, size_t ops_len,
    const uint64_t *operands, size_t operands_len,
    uint32_t nv,
    uint32_t w,
    size_t n,
    const uint64_t *records, size_t records_len);

/* `probe_points::make_probe_points`. Refuses 1, 2. */
struct simjaldek_points_reply simjaldek_make_probe_points(
    uint32_t nv,
    uint32_t w);

/* `probe::probe`, with sixteen points of six words each. Refuses 1, 2, 4, 6. */
struct simjaldek_row_reply simjaldek_probe(
    uint32_t nv,
    uint32_t w,
    const uint64_t *points, size_t points_len,
    size_t token_count,
    const uint8_t *ops, size_t ops_len,
    const uint64_t *operands, size_t operands_len);

/* `row_fingerprint::fingerprint`. Refuses 4. */
struct simjaldek_word_reply simjaldek_fingerprint(
    const uint64_t *row, size_t row_len);

/* `arith::bitmask`. */
uint64_t simjaldek_bitmask(
    uint32_t w);

/* `arith::reduce`. */
uint64_t simjaldek_reduce(
    uint64_t x,
    uint32_t w);

/* `arith::wrapping_mul`. */
uint64_t simjaldek_wrapping_mul(
    uint64_t a,
    uint64_t b);

/* `arith::mod_add`. */
uint64_t simjaldek_mod_add(
    uint64_t a,
    uint64_t b,
    uint32_t w);

/* `arith::mod_sub`. */
uint64_t simjaldek_mod_sub(
    uint64_t a,
    uint64_t b,
    uint32_t w);

/* `arith::mod_mul`. */
uint64_t simjaldek_mod_mul(
    uint64_t a,
    uint64_t b,
    uint32_t w);

/* `arith::mod_not`. */
uint64_t simjaldek_mod_not(
    uint64_t v,
    uint32_t w);

/* `arith::mod_neg`. */
uint64_t simjaldek_mod_neg(
    uint64_t v,
    uint32_t w);

/* `arith::mod_inverse_odd`. */
uint64_t simjaldek_mod_inverse_odd(
    uint64_t m,
    uint32_t k);

/* `probe_points::splitmix64`. */
struct simjaldek_draw_reply simjaldek_splitmix64(
    uint64_t state);

/* `Cost::is_better` of two costs by their numbers: 1 where the first is better, else 0. */
uint32_t simjaldek_is_better(
    uint32_t size,
    uint32_t products,
    uint32_t depth,
    uint32_t size2,
    uint32_t products2,
    uint32_t depth2);

/* `row_gates::gate_apply`, with the gate's number. Refuses 2, 4, and 6 for a number above 4. */
struct simjaldek_row_reply simjaldek_gate_apply(
    const uint64_t *a, size_t a_len,
    const uint64_t *b, size_t b_len,
    uint32_t g,
    uint32_t w);

/* `row_gates::gate_residual`, with the gate's number. Refuses 2, 4, and 6 for a number above 4. */
struct simjaldek_row_reply simjaldek_gate_residual(
    const uint64_t *target, size_t target_len,
    const uint64_t *a, size_t a_len,
    uint32_t g,
    uint32_t w);

/* `row_gates::gate_matches`, with the gate's number: kind 1 the same, 0 different. Refuses 2, 4, and 6 for a number above 4. */
struct simjaldek_reply simjaldek_gate_matches(
    const uint64_t *a, size_t a_len,
    const uint64_t *b, size_t b_len,
    const uint64_t *target, size_t target_len,
    uint32_t g,
    uint32_t w);

/* Where `bank_lookup::atom_row` begins: the place in words of the first of the slot's sixteen. Refuses 4, 7. */
struct simjaldek_reply simjaldek_atom_row(
    const uint64_t *atom_rows, size_t atom_rows_len,
    size_t atom_count,
    uint32_t slot);

/* `listing::write_listing` of a whole text: the length of what the listing program writes, which stands in the buffer. Refuses 4. */
struct simjaldek_text_reply simjaldek_write_listing(
    uint8_t *out, size_t out_len,
    const uint8_t *text, size_t text_len);

#ifdef __cplusplus
}
#endif

#endif
