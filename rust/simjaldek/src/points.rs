//! The sixteen points with their variable count and width, and what is asked of a formula there.

use crate::lent::{self, Atoms};
use crate::{
    Cost, CutConstant, Formula, FormulaBuf, FormulaError, ParseFormulaError, Point, Refusal, Row,
};
use std::error::Error;
use std::fmt;

/// Sixteen points over a number of variables at a width: the place where both are told, for every call that follows.
#[derive(Clone, Debug, PartialEq, Eq)]
pub struct Points {
    num_vars: u32,
    width: u32,
    words: [Point; 16],
}

impl Points {
    /// The points that splitmix64 gives. Refuses 1, 2.
    pub fn standard(num_vars: u32, width: u32) -> Result<Self, Refusal> {
        let words = lent::probe_points(num_vars, width)?;
        Ok(Points {
            num_vars,
            width,
            words,
        })
    }

    /// A caller's own points. Words past the variable count are ignored, and kept as 0. Points may repeat; a row then tells less. Refuses
    /// 1, 2, 5.
    ///
    /// The library is asked for each: 1 and 2 by its own points, 5 by looking for each variable's words in a bank of no atoms. So a
    /// bank build has nothing left to refuse of the points.
    pub fn new(num_vars: u32, width: u32, words: [Point; 16]) -> Result<Self, Refusal> {
        lent::probe_points(num_vars, width)?;
        for variable in 0..num_vars as usize {
            test_words(width, &words.map(|point| point[variable]))?;
        }
        Ok(Points {
            num_vars,
            width,
            words: words.map(|point| of_variables(point, num_vars)),
        })
    }

    /// How many variables.
    pub fn num_vars(&self) -> u32 {
        self.num_vars
    }

    /// The width in bits.
    pub fn width(&self) -> u32 {
        self.width
    }

    /// The points' words; 0 past the variable count.
    pub fn words(&self) -> &[Point; 16] {
        &self.words
    }

    /// The row of a formula: its values at the points. Refuses 6.
    pub fn row(&self, formula: Formula<'_>) -> Result<Row, FormulaError> {
        let points = self.words.as_flattened();
        lent::probe_row(self.num_vars, self.width, points, formula.lend())
            .map_err(|refusal| FormulaError::new(refusal, self.num_vars, formula))
    }

    /// The value of a formula with any word for each variable, here or elsewhere: [`evaluate`](crate::evaluate). Refuses 6, and 4 for
    /// fewer words than variables.
    pub fn evaluate(&self, formula: Formula<'_>, words: &[u64]) -> Result<u64, FormulaError> {
        crate::evaluate(self.num_vars, self.width, formula, words)
    }

    /// The cost of a formula: [`compute_cost`](crate::compute_cost). Refuses 6.
    pub fn compute_cost(&self, formula: Formula<'_>) -> Result<Cost, FormulaError> {
        crate::compute_cost(self.num_vars, formula)
    }

    /// Reads a text as a formula over the variables, with the constants that the width cuts off.
    ///
    /// ```
    /// let points = simjaldek::Points::standard(2, 16)?;
    /// let read = points.read("v0 v1 & c70000 +")?;
    /// assert_eq!(read.formula.to_string(), "v0 v1 & c70000 +");
    /// let cut: Vec<String> = read.cut.iter().map(|cut| cut.to_string()).collect();
    /// assert_eq!(cut, ["c70000 at token 4 counts as c4464 at width 16"]);
    /// let told = |text| points.read(text).unwrap_err().to_string();
    /// assert_eq!(told("v0 v6 +"), "refused 6: v6 at token 2: variables are v0 and v1");
    /// assert_eq!(
    ///     told("v0+v1"),
    ///     "v0+v1 at token 1: postfix is wanted, with blanks between the tokens: `v0 v1 +` for v0 + v1"
    /// );
    /// # Ok::<(), Box<dyn std::error::Error>>(())
    /// ```
    pub fn read(&self, text: &str) -> Result<Reading, ReadError> {
        let formula: FormulaBuf = text.parse()?;
        // for its refusal
        self.compute_cost(formula.as_formula())?;
        let cut = formula.as_formula().cut_constants(self.width).collect();
        Ok(Reading { formula, cut })
    }
}

/// Tests that all words are below 2^w. Refuses 2, 5.
fn test_words(width: u32, row: &Row) -> Result<(), Refusal> {
    let no_atoms = Atoms {
        count: 0,
        rows: &[],
    };
    lent::find_row(width, no_atoms, row).map(|_| ())
}

/// The words of the variables, and 0 in the places past them.
fn of_variables(mut point: Point, num_vars: u32) -> Point {
    point[num_vars as usize..].fill(0);
    point
}

/// A formula that was read from a text.
#[derive(Clone, Debug, PartialEq, Eq)]
pub struct Reading {
    /// The formula, its constants as they stand in the text.
    pub formula: FormulaBuf,
    /// The constants that count as others, since the width cuts them off.
    pub cut: Vec<CutConstant>,
}

/// Why a text is no formula over the variables.
#[derive(Clone, Debug, PartialEq, Eq)]
pub enum ReadError {
    /// A word is no token.
    Parse(ParseFormulaError),
    /// The tokens are no formula.
    Formula(FormulaError),
}

impl fmt::Display for ReadError {
    fn fmt(&self, f: &mut fmt::Formatter<'_>) -> fmt::Result {
        match self {
            ReadError::Parse(error) => error.fmt(f),
            ReadError::Formula(error) => error.fmt(f),
        }
    }
}

impl Error for ReadError {}

impl From<ParseFormulaError> for ReadError {
    fn from(error: ParseFormulaError) -> Self {
        ReadError::Parse(error)
    }
}

impl From<FormulaError> for ReadError {
    fn from(error: FormulaError) -> Self {
        ReadError::Formula(error)
    }
}
