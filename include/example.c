/* Shortens two formulas at width 8: the cheapest product with the row of v0 * v0 + v0 * v1, and, since no product has its
   row, a sum with that of v0 * v0 + v0 * v1 + v0 * v1 + v1 * v1 + (v0 ^ v1), the first that fits. The calls in their order,
   with arrays of the sizes that they need. Then a rule over records that come in two parts, and a
   closing log over two soundings. README.md says how it is compiled. */
#include "simjaldek.h"
#include <stdio.h>
#include <stdlib.h>

enum { NV = 2, W = 8, ATOMS = 479, LIMIT = 10000, TOKENS = 19 };

/* v0 v0 * v0 v1 * + v0 v1 * + v1 v1 * + v0 v1 ^ + : opcode 1 is a variable, 3 a product, 2 a sum, 6 an xor; the first seven
   tokens are the first formula */
static const uint8_t ops[TOKENS] = {1, 1, 3, 1, 1, 3, 2, 1, 1, 3, 2, 1, 1, 3, 2, 1, 1, 6, 2};
static const uint64_t operands[TOKENS] = {0, 0, 0, 0, 1, 0, 0, 0, 1, 0, 0, 1, 1, 0, 0, 0, 1, 0, 0};

static uint32_t atom_lengths[ATOMS], atom_costs[3 * ATOMS], bank_work[4 * ATOMS];
static uint8_t atom_ops[6 * ATOMS];
static uint64_t atom_operands[6 * ATOMS], atom_rows[16 * ATOMS];
static uint32_t pairs[3 * LIMIT], order[LIMIT], index_work[4 * (LIMIT + ATOMS)];
static uint64_t pair_rows[16 * LIMIT];

/* a refusal ends the program: nothing was written, and the answer says nothing */
static void refused(const char *call, uint32_t refusal) {
    if (refusal != 0) {
        fprintf(stderr, "%s refused %u\n", call, (unsigned)refusal);
        exit(1);
    }
}

static void print_atom(uint32_t slot) {
    static const char signs[] = "  +*&|^!-";
    for (uint32_t k = 0; k < atom_lengths[slot]; k++) {
        uint8_t op = atom_ops[6 * slot + k];
        if (op < 2) {
            printf("%c%llu ", op == 0 ? 'c' : 'v', (unsigned long long)atom_operands[6 * slot + k]);
        } else {
            printf("%c ", signs[op]);
        }
    }
}

/* an atom with an atom (kind 1) or with a pair (kind 2), under a gate of this number */
static void print_found(uint32_t kind, uint32_t gate, uint32_t a, uint32_t b) {
    static const char signs[] = "&|^+*";
    print_atom(a);
    if (kind == 1) {
        print_atom(b);
    } else {
        print_atom(pairs[3 * b + 1]);
        print_atom(pairs[3 * b + 2]);
        printf("%c ", signs[pairs[3 * b]]);
    }
    printf("%c\nthe same values at the sixteen points; elsewhere unknown\n", signs[gate]);
}

/* looks for the cheapest product with the row of the first tokens, and then for an xor or a sum */
static void shorten(const uint64_t *points, size_t token_count) {
    struct simjaldek_row_reply target =
        simjaldek_probe(NV, W, points, 96, token_count, ops, TOKENS, operands, TOKENS);
    refused("probe", target.refusal);
    struct simjaldek_reply bank = simjaldek_build_bank(
        atom_lengths, ATOMS, atom_ops, 6 * ATOMS, atom_operands, 6 * ATOMS, atom_costs, 3 * ATOMS,
        atom_rows, 16 * ATOMS, bank_work, 4 * ATOMS, NV, W, points, 96, target.row, 16);
    refused("build_bank", bank.refusal);
    struct simjaldek_reply index = simjaldek_build_index(
        W, bank.a, atom_rows, 16 * ATOMS, LIMIT,
        pairs, 3 * LIMIT, pair_rows, 16 * LIMIT, order, LIMIT, index_work, 4 * (LIMIT + ATOMS));
    refused("build_index", index.refusal);
    printf("atoms %u pairs %u %s\n", (unsigned)bank.a, (unsigned)index.a, index.b == 1 ? "cut" : "whole");
    struct simjaldek_reply product = simjaldek_product_search(
        W, bank.a, atom_lengths, ATOMS, atom_ops, 6 * ATOMS, atom_operands, 6 * ATOMS, atom_rows, 16 * ATOMS,
        index.a, pairs, 3 * LIMIT, pair_rows, 16 * LIMIT, order, LIMIT, target.row, 16);
    refused("product_search", product.refusal);
    if (product.kind != 0) {
        print_found(product.kind, 4, product.a, product.b);
        return;
    }
    struct simjaldek_residual_reply completion = simjaldek_residual_search(
        W, bank.a, atom_rows, 16 * ATOMS, index.a, pair_rows, 16 * LIMIT, target.row, 16);
    refused("residual_search", completion.refusal);
    if (completion.kind != 0) {
        print_found(completion.kind, completion.gate, completion.a, completion.b);
        return;
    }
    printf("nothing, %s\n", index.b == 1 ? "but the index is cut" : "for certain, of these forms");
}

/* a rule over six records: it fires where v0 & v1 was nonzero in at least 2 of the last 3, the present one included. The state
   that a call hands back goes into the next one. */
static void replay(void) {
    enum { RECORDS = 6, PART = 3, RULE = 3 };
    static const uint8_t rule_ops[RULE] = {1, 1, 4};
    static const uint64_t rule_operands[RULE] = {0, 1, 0};
    static const uint64_t records[NV * RECORDS] = {1, 1, 1, 2, 3, 2, 7, 4, 5, 2, 8, 4};
    uint8_t answers[RECORDS];
    uint64_t state = 0; /* no record yet */
    for (size_t k = 0; k < RECORDS; k += PART) {
        struct simjaldek_rule_reply ran = simjaldek_run_rule(
            answers + k, PART, NV, W, RULE, rule_ops, RULE, rule_operands, RULE, 2, 3, state,
            PART, records + NV * k, NV * PART);
        refused("run_rule", ran.refusal);
        state = ran.state;
    }
    printf("the rule fires at records");
    for (int k = 0; k < RECORDS; k++) {
        if (answers[k] == 1) {
            printf(" %d", k + 1);
        }
    }
    printf("\n");
}

/* two soundings, each closed once: by v0, rank 1, in two of the last three records, or by v1, rank 2, in two of the last two. A
   rule has 64 places for its tokens; the log that a call hands back goes into the next one. */
static void close_soundings(void) {
    enum { RULES = 2, PLACES = 64, SOUNDINGS = 2, RECORDS = 5 };
    static const uint32_t ranks[RULES] = {1, 2}, ms[RULES] = {2, 2}, windows[RULES] = {3, 2}, token_counts[RULES] = {1, 1};
    static const uint8_t rule_ops[RULES * PLACES] = {[0] = 1, [PLACES] = 1};
    static const uint64_t rule_operands[RULES * PLACES] = {[0] = 0, [PLACES] = 1};
    static const uint64_t records[SOUNDINGS][NV * RECORDS] = {
        {0, 0, 1, 5, 1, 5, 0, 5, 0, 5}, /* both fire on the third */
        {0, 5, 1, 5, 0, 0, 1, 0, 0, 0},
    };
    struct simjaldek_log_state log = {0}; /* no sounding yet */
    for (int k = 0; k < SOUNDINGS; k++) {
        log = simjaldek_open_log(log);
        struct simjaldek_log_reply ran = simjaldek_run_log(
            log, RULES, ranks, RULES, ms, RULES, windows, RULES, token_counts, RULES, rule_ops, RULES * PLACES,
            rule_operands, RULES * PLACES, NV, W, RECORDS, records[k], NV * RECORDS);
        refused("run_log", ran.refusal);
        log = ran.log;
        printf("sounding %d: closed at record %llu by rank %u, later %llu\n", k + 1, (unsigned long long)log.closed_at,
               (unsigned)log.rank, (unsigned long long)log.later);
    }
}

int main(void) {
    struct simjaldek_points_reply at = simjaldek_make_probe_points(NV, W);
    refused("make_probe_points", at.refusal);
    shorten((const uint64_t *)at.points, 7);
    shorten((const uint64_t *)at.points, TOKENS);
    replay();
    close_soundings();
    return 0;
}
