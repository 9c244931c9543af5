//! A test load: formulas drawn from a seed, the same on every desk.

use crate::lent::{self, Drawn};
use crate::{Formula, FormulaBuf, Refusal, FORMULA_TOKENS_MAX};
use std::iter::FusedIterator;

/// The formulas that are drawn from a seed, without end. The same seed, variable count, width and token limit give the same formulas, and
/// the first n of a longer load are the load of n. [`is_formula`](crate::is_formula) holds of each over these variables; its constants are
/// below 2^w. Displayed, a formula is a line of the program `load`, without the line's end.
///
/// ```
/// use simjaldek::Load;
///
/// let load = Load::new(1, 2, 32, 7)?;
/// let lines: Vec<String> = load.take(3).map(|formula| formula.to_string()).collect();
/// assert_eq!(lines, ["v0 - -", "v1 c1952540566 &", "c2430050954 c2776189499 +"]);
/// # Ok::<(), simjaldek::Refusal>(())
/// ```
#[derive(Clone, Debug, PartialEq, Eq)]
#[must_use = "a load is drawn as it is asked for formulas"]
pub struct Load {
    state: u64,
    num_vars: u32,
    width: u32,
    limit: usize,
}

impl Load {
    /// The load of a seed: formulas of 1 to `limit` tokens over the variables. The seed may be any, and so may be the
    /// [`state`](Load::state) of another load, which is then gone on with. Refuses 1, 2, and 6 for a limit that isn't 1 to 64.
    ///
    /// ```
    /// use simjaldek::{Load, Refusal};
    ///
    /// assert!(Load::new(1, 2, 32, 64).is_ok());
    /// assert_eq!(Load::new(1, 7, 65, 0), Err(Refusal::VariableCount));
    /// assert_eq!(Load::new(1, 2, 65, 0), Err(Refusal::Width));
    /// assert_eq!(Load::new(1, 2, 32, 65), Err(Refusal::Formula));
    /// ```
    pub fn new(seed: u64, num_vars: u32, width: u32, limit: usize) -> Result<Self, Refusal> {
        let load = Load {
            state: seed,
            num_vars,
            width,
            limit,
        };
        // for its refusal
        load.draw()?;
        Ok(load)
    }

    /// The state of splitmix64 that the next formula is drawn from; the seed before the first.
    ///
    /// ```
    /// use simjaldek::Load;
    ///
    /// let mut load = Load::new(1, 2, 32, 7)?;
    /// assert_eq!(load.state(), 1);
    /// let first = load.by_ref().take(2).count();
    /// let rest = Load::new(load.state(), 2, 32, 7)?;
    /// let whole = Load::new(1, 2, 32, 7)?;
    /// assert!(whole.skip(first).take(100).eq(rest.take(100)));
    /// # Ok::<(), simjaldek::Refusal>(())
    /// ```
    pub fn state(&self) -> u64 {
        self.state
    }

    /// How many variables.
    pub fn num_vars(&self) -> u32 {
        self.num_vars
    }

    /// The width in bits.
    pub fn width(&self) -> u32 {
        self.width
    }

    /// The most tokens of a formula.
    pub fn limit(&self) -> usize {
        self.limit
    }

    /// The next formula, and the state after it.
    fn draw(&self) -> Result<(FormulaBuf, u64), Refusal> {
        let (mut ops, mut operands) = ([0; FORMULA_TOKENS_MAX], [0; FORMULA_TOKENS_MAX]);
        let Load {
            state,
            num_vars,
            width,
            limit,
        } = *self;
        let Drawn { count, state } =
            lent::draw_formula(state, num_vars, width, limit, &mut ops, &mut operands)?;
        let formula = Formula::new(&ops[..count], &operands[..count]).expect("as many of each");
        Ok((formula.tokens().collect(), state))
    }
}

impl Iterator for Load {
    type Item = FormulaBuf;

    fn next(&mut self) -> Option<FormulaBuf> {
        let (formula, state) = self.draw().expect("what `new` took isn't refused later");
        self.state = state;
        Some(formula)
    }

    fn size_hint(&self) -> (usize, Option<usize>) {
        (usize::MAX, None)
    }
}

impl FusedIterator for Load {}
