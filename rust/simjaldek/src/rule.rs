//! A rule over a run of telemetry records, fed in slices.

use crate::lent::{self, Records};
use crate::{Formula, FormulaBuf, FormulaError, Refusal, Window};

/// A rule, and what it has seen of its run. It fires at a record where in at least M of the last W records, this one included, its
/// formula's value modulo 2^w was nonzero. Records before the first count as not nonzero, whatever the formula. A record is a word for each
/// variable, and the words may be any.
///
/// Records are fed in slices of whole records, one after the other, and a slice goes on where the one before it ended: how a run is
/// divided makes no difference to its answers, and an empty slice changes nothing.
///
/// ```
/// use simjaldek::{FormulaBuf, Rule, Window};
///
/// let alarm: FormulaBuf = "v0 c4 &".parse()?;
/// let window = Window { least: 2, records: 3 };
/// let mut rule = Rule::new(1, 16, alarm.as_formula(), window)?;
/// let answers = rule.feed(&[4, 0, 6, 0, 0, 5, 12])?;
/// assert_eq!(answers, [false, false, true, false, false, false, true]);
///
/// rule.reset();
/// assert_eq!(rule.feed(&[4, 0, 6, 0])?, answers[..4]);
/// assert_eq!(rule.feed(&[0, 5, 12])?, answers[4..]);
/// # Ok::<(), Box<dyn std::error::Error>>(())
/// ```
#[derive(Clone, Debug, PartialEq, Eq)]
#[must_use = "a rule answers when it is fed records"]
pub struct Rule {
    num_vars: u32,
    width: u32,
    formula: FormulaBuf,
    window: Window,
    state: u64,
}

impl Rule {
    /// The rule before the first record of a run. Refuses 1, 2, 6, and 10 for a window that isn't one.
    ///
    /// ```
    /// use simjaldek::{FormulaBuf, Refusal, Rule, Window};
    ///
    /// let formula: FormulaBuf = "v0 v1 &".parse()?;
    /// let told = |num_vars, width, least, records| {
    ///     let rule = Rule::new(num_vars, width, formula.as_formula(), Window { least, records });
    ///     rule.err().map(|error| error.to_string())
    /// };
    /// assert_eq!(told(2, 16, 64, 64), None);
    /// assert_eq!(told(7, 16, 3, 5).as_deref(), Some("refused 1: variable count not 1 to 6"));
    /// assert_eq!(told(2, 65, 3, 5).as_deref(), Some("refused 2: width not 1 to 64"));
    /// let no_such = "refused 6: v1 at token 2: the only variable is v0";
    /// assert_eq!(told(1, 16, 0, 5).as_deref(), Some(no_such));
    /// let no_window = Refusal::Window.to_string();
    /// for (least, records) in [(0, 5), (6, 5), (1, 0), (1, 65)] {
    ///     assert_eq!(told(2, 16, least, records), Some(no_window.clone()));
    /// }
    /// # Ok::<(), Box<dyn std::error::Error>>(())
    /// ```
    pub fn new(
        num_vars: u32,
        width: u32,
        formula: Formula<'_>,
        window: Window,
    ) -> Result<Self, FormulaError> {
        let rule = Rule {
            num_vars,
            width,
            formula: formula.tokens().collect(),
            window,
            state: 0,
        };
        // for its refusal
        rule.run(Records::NONE, &mut [])
            .map_err(|refusal| FormulaError::new(refusal, num_vars, formula))?;
        Ok(rule)
    }

    /// Whether it fires, for each of these records. Refuses 4 for a slice that ends within a record: no word is dropped in silence. Then
    /// none of its records was taken, and the run stands where it stood.
    ///
    /// ```
    /// use simjaldek::{FormulaBuf, Refusal, Rule, Window};
    ///
    /// let formula: FormulaBuf = "v0 v1 &".parse()?;
    /// let mut rule = Rule::new(2, 16, formula.as_formula(), Window { least: 1, records: 1 })?;
    /// assert_eq!(rule.feed(&[1, 3, 1, 2, 1]), Err(Refusal::ShortArray));
    /// assert_eq!(rule.feed(&[1, 3, 1, 2])?, [true, false]);
    /// # Ok::<(), Box<dyn std::error::Error>>(())
    /// ```
    pub fn feed(&mut self, records: &[u64]) -> Result<Vec<bool>, Refusal> {
        let mut answers = vec![0; self.records(records).count];
        self.feed_into(records, &mut answers)?;
        Ok(answers.into_iter().map(fires).collect())
    }

    /// The same into lent places, a byte for each record: 1 where it fires, else 0. Gives the number of records; places past them stay as
    /// they were. Refuses 4 for a slice that ends within a record, and for fewer places than records.
    ///
    /// ```
    /// use simjaldek::{FormulaBuf, Rule, Window};
    ///
    /// let formula: FormulaBuf = "v0".parse()?;
    /// let mut rule = Rule::new(1, 16, formula.as_formula(), Window { least: 2, records: 2 })?;
    /// let mut answers = [9; 5];
    /// assert_eq!(rule.feed_into(&[1, 2, 0], &mut answers)?, 3);
    /// assert_eq!(answers, [0, 1, 0, 9, 9]);
    /// # Ok::<(), Box<dyn std::error::Error>>(())
    /// ```
    pub fn feed_into(&mut self, records: &[u64], answers: &mut [u8]) -> Result<usize, Refusal> {
        let records = self.records(records);
        self.state = self.run(records, answers)?;
        Ok(records.count)
    }

    /// Whether it fires at the next record: a word for each variable. Refuses 4 for fewer words, and for more.
    ///
    /// ```
    /// use simjaldek::{FormulaBuf, Rule, Window};
    ///
    /// let formula: FormulaBuf = "v0 v1 ^".parse()?;
    /// let mut rule = Rule::new(2, 16, formula.as_formula(), Window { least: 2, records: 3 })?;
    /// assert!(!rule.feed_one(&[7, 6])?);
    /// assert!(!rule.feed_one(&[7, 7])?);
    /// assert!(rule.feed_one(&[7, 8])?);
    /// assert!(rule.feed_one(&[7]).is_err() && rule.feed_one(&[7, 8, 9, 9]).is_err());
    /// # Ok::<(), Box<dyn std::error::Error>>(())
    /// ```
    pub fn feed_one(&mut self, record: &[u64]) -> Result<bool, Refusal> {
        let mut answer = [0];
        match self.feed_into(record, &mut answer)? {
            0 => Err(Refusal::ShortArray),
            _ => Ok(fires(answer[0])),
        }
    }

    /// What it has seen of the run: bit i is 1 where the formula was nonzero i records before the last, 64 records back whatever the window;
    /// 0 before the first.
    ///
    /// ```
    /// use simjaldek::{FormulaBuf, Rule, Window};
    ///
    /// let formula: FormulaBuf = "v0".parse()?;
    /// let mut rule = Rule::new(1, 16, formula.as_formula(), Window { least: 1, records: 1 })?;
    /// rule.feed(&[7, 7, 0, 7])?;
    /// assert_eq!(rule.state(), 0b1101);
    /// # Ok::<(), Box<dyn std::error::Error>>(())
    /// ```
    pub fn state(&self) -> u64 {
        self.state
    }

    /// Goes on from the [`state`](Rule::state) of a run, such as one that was stored; any word is one. It says nothing of its rule: that
    /// it was one of the same formula and width is for the caller to see to. The window may be another.
    ///
    /// ```
    /// use simjaldek::{FormulaBuf, Rule, Window};
    ///
    /// let formula: FormulaBuf = "v0".parse()?;
    /// let window = Window { least: 3, records: 4 };
    /// let mut rule = Rule::new(1, 16, formula.as_formula(), window)?;
    /// rule.feed(&[7, 7, 0])?;
    /// let stored = rule.state();
    ///
    /// let mut later = Rule::new(1, 16, formula.as_formula(), window)?;
    /// later.resume(stored);
    /// assert_eq!(later, rule);
    /// assert_eq!(later.feed(&[7])?, [true]);
    /// # Ok::<(), Box<dyn std::error::Error>>(())
    /// ```
    pub fn resume(&mut self, state: u64) {
        self.state = state;
    }

    /// Begins a new run: nothing that was fed before counts.
    pub fn reset(&mut self) {
        self.resume(0);
    }

    /// How many variables: the words of a record.
    pub fn num_vars(&self) -> u32 {
        self.num_vars
    }

    /// The width in bits.
    pub fn width(&self) -> u32 {
        self.width
    }

    /// The formula.
    pub fn formula(&self) -> Formula<'_> {
        self.formula.as_formula()
    }

    /// The window.
    pub fn window(&self) -> Window {
        self.window
    }

    fn records<'a>(&self, words: &'a [u64]) -> Records<'a> {
        Records::all(self.num_vars, words)
    }

    /// Answers the records: the state after them.
    fn run(&self, records: Records<'_>, answers: &mut [u8]) -> Result<u64, Refusal> {
        lent::run_rule(
            self.num_vars,
            self.width,
            self.formula().lend(),
            self.window,
            self.state,
            records,
            answers,
        )
    }
}

/// What an answer's byte says.
fn fires(answer: u8) -> bool {
    answer == 1
}
