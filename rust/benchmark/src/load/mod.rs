//! The test load: the call that draws a formula, and the program `load` as a process, both beside plain Rust that does the same.

pub mod plain;
mod program;

use std::hint::black_box;
use std::time::Duration;

use simjaldek::lent::{self, Drawn};
use simjaldek::FORMULA_TOKENS_MAX;

use crate::measure::{alternate, together, Plan, Times};
use crate::Call;
use plain::Source;

pub use program::{child, markdown, CHILD};

/// The token limits that are timed.
const LIMITS: [usize; 2] = [7, FORMULA_TOKENS_MAX];
/// Formulas of a round, and the seed of the first.
const ROUND: usize = 256;
const SEED: u64 = 1;

/// The arrays of one formula.
struct Arrays {
    ops: [u8; FORMULA_TOKENS_MAX],
    operands: [u64; FORMULA_TOKENS_MAX],
}

/// Times the call; the calls of a round are so many formulas. The state runs on from round to round, on both sides alike, so that no
/// processor gets to know the formulas.
pub fn time(plan: &Plan, num_vars: u32, width: u32, take: &mut impl FnMut(Call, String, Times)) {
    check(num_vars, width);
    for source in sources(num_vars, width) {
        let mut ours = timed(black_box(source), our_draw);
        let mut rust = timed(black_box(source), plain_draw);
        let times = alternate(plan, &mut ours, &mut rust).per(ROUND);
        let note = format!("{ROUND} formulas of at most {} tokens", source.limit);
        take(Call::Draw, note, times);
    }
}

/// Both sides draw the same formulas and hand on the same states.
pub fn check(num_vars: u32, width: u32) {
    for source in sources(num_vars, width) {
        let (mut ours, mut rust) = (source, source);
        let (mut our_arrays, mut rust_arrays) = (Arrays::new(), Arrays::new());
        for _ in 0..ROUND {
            let count = our_draw(&mut ours, &mut our_arrays);
            assert_eq!(count, plain_draw(&mut rust, &mut rust_arrays));
            assert_eq!(ours.state, rust.state);
            assert_eq!(our_arrays.ops, rust_arrays.ops);
            assert_eq!(our_arrays.operands, rust_arrays.operands);
        }
    }
}

fn sources(num_vars: u32, width: u32) -> [Source; 2] {
    LIMITS.map(|limit| Source {
        state: SEED,
        num_vars,
        width,
        limit,
    })
}

/// Rounds of one side.
fn timed(
    mut source: Source,
    draw: impl Fn(&mut Source, &mut Arrays) -> usize,
) -> impl FnMut(u32) -> Duration {
    let mut arrays = Arrays::new();
    together(move || {
        for _ in 0..ROUND {
            black_box(draw(&mut source, black_box(&mut arrays)));
        }
    })
}

fn our_draw(source: &mut Source, arrays: &mut Arrays) -> usize {
    let Source {
        state,
        num_vars,
        width,
        limit,
    } = *source;
    let (ops, operands) = (&mut arrays.ops, &mut arrays.operands);
    let drawn = lent::draw_formula(state, num_vars, width, limit, ops, operands);
    let Drawn { count, state } = drawn.expect("in range");
    source.state = state;
    count
}

fn plain_draw(source: &mut Source, arrays: &mut Arrays) -> usize {
    let drawn = source.draw_formula(&mut arrays.ops, &mut arrays.operands);
    drawn.expect("in range")
}

impl Arrays {
    fn new() -> Self {
        Arrays {
            ops: [0; FORMULA_TOKENS_MAX],
            operands: [0; FORMULA_TOKENS_MAX],
        }
    }
}
