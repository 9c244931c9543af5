//! The closing log of a station's soundings, fed in slices of records.

use crate::lent::{self, Records, Rules};
use crate::{
    Close, Formula, FormulaError, LogState, Refusal, Window, FORMULA_TOKENS_MAX, LOG_RULES_MAX,
};

/// A rule of a closing log.
#[derive(Clone, Copy, Debug, PartialEq, Eq)]
pub struct RankedRule<'a> {
    /// Its rank, 1 to 8: of rules that fire on one record the smallest wins.
    pub rank: u32,
    /// Its formula.
    pub formula: Formula<'a>,
    /// Its window.
    pub window: Window,
}

/// The closing log of a station: up to eight ranked rules, and what it shows of the sounding that was opened last. On the first record where
/// some rule fires, as a [`Rule`](crate::Rule) does, the sounding is closed with that record's number and the least rank that fires, and no
/// later record alters this; later ones with a firing are only counted, once however many rules fire.
///
/// [`open`](Log::open) starts a sounding, and its windows afresh: nothing that came before counts. Records are numbered from 1 in each
/// sounding; those before any opening do nothing. They are fed one by one or in slices of whole records, and how they are divided makes no
/// difference.
///
/// ```
/// use simjaldek::{Close, FormulaBuf, Log, RankedRule, Window};
///
/// // bit 0 of the status word is set where the height fell, bit 1 where frames were lost
/// let [fell, lost]: [FormulaBuf; 2] = ["v0 c1 &".parse()?, "v0 c2 &".parse()?];
/// let burst = RankedRule {
///     rank: 1,
///     formula: fell.as_formula(),
///     window: Window { least: 2, records: 3 },
/// };
/// let signal_loss = RankedRule {
///     rank: 2,
///     formula: lost.as_formula(),
///     window: Window { least: 2, records: 2 },
/// };
/// let mut log = Log::new(1, 8, &[burst, signal_loss])?;
/// assert_eq!(log.records(&[3, 3, 3])?, None, "no sounding is open");
///
/// log.open();
/// assert_eq!(log.record(&[0])?, None);
/// assert_eq!(log.record(&[3])?, None);
/// // both rules fire
/// assert_eq!(log.record(&[3])?, Some(Close { number: 3, rank: 1 }));
/// assert_eq!(log.records(&[2, 2, 0])?, None, "closed already");
/// assert_eq!(log.close(), Some(Close { number: 3, rank: 1 }));
/// assert_eq!((log.number(), log.later()), (6, 2));
///
/// log.open();
/// assert_eq!((log.number(), log.close(), log.later()), (0, None, 0));
/// assert_eq!(log.records(&[1, 2, 2, 1])?, Some(Close { number: 3, rank: 2 }));
/// # Ok::<(), Box<dyn std::error::Error>>(())
/// ```
#[derive(Clone, Debug, PartialEq, Eq)]
#[must_use = "a log closes soundings when it is fed records"]
pub struct Log {
    num_vars: u32,
    width: u32,
    rules: Arrays,
    state: LogState,
}

impl Log {
    /// The empty log of these rules: no sounding is open. The rules keep their places, which are those of their windows in a
    /// [`state`](Log::state). Refuses 1, 2, 6 with the fault of the first formula that has one, 10 for a window that isn't one, and 11 for no
    /// rule, more than eight, a rank that isn't 1 to 8 or two equal ranks.
    ///
    /// ```
    /// use simjaldek::{FormulaBuf, Log, RankedRule, Refusal, Window};
    ///
    /// let formula: FormulaBuf = "v0 v1 &".parse()?;
    /// let told = |num_vars, width, ranks: &[u32], least| {
    ///     let window = Window { least, records: 5 };
    ///     let rule = |&rank| RankedRule { rank, formula: formula.as_formula(), window };
    ///     let rules: Vec<RankedRule<'_>> = ranks.iter().map(rule).collect();
    ///     let log = Log::new(num_vars, width, &rules);
    ///     log.err().map(|error| error.to_string())
    /// };
    /// assert_eq!(told(2, 16, &[2, 1, 8], 3), None);
    /// assert_eq!(told(7, 16, &[1], 3).as_deref(), Some("refused 1: variable count not 1 to 6"));
    /// assert_eq!(told(2, 65, &[1], 3).as_deref(), Some("refused 2: width not 1 to 64"));
    /// let no_such = "refused 6: v1 at token 2: the only variable is v0";
    /// assert_eq!(told(1, 16, &[1], 0).as_deref(), Some(no_such));
    /// assert_eq!(told(2, 16, &[1, 1], 0), Some(Refusal::Window.to_string()));
    /// for ranks in [&[][..], &[0], &[9], &[3, 4, 3], &[1, 2, 3, 4, 5, 6, 7, 8, 9]] {
    ///     assert_eq!(told(2, 16, ranks, 3), Some(Refusal::Ranks.to_string()));
    /// }
    /// # Ok::<(), Box<dyn std::error::Error>>(())
    /// ```
    pub fn new(num_vars: u32, width: u32, rules: &[RankedRule<'_>]) -> Result<Self, FormulaError> {
        let log = Log {
            num_vars,
            width,
            rules: Arrays::new(rules),
            state: LogState::default(),
        };
        // for its refusal
        log.run(Records::NONE).map_err(|refusal| {
            let is_faulty = |rule: &&RankedRule<'_>| rule.formula.fault(num_vars).is_some();
            let faulty = rules.iter().find(is_faulty);
            faulty.map_or(refusal.into(), |rule| {
                FormulaError::new(refusal, num_vars, rule.formula)
            })
        })?;
        Ok(log)
    }

    /// Starts a sounding, and its windows afresh. An earlier one is at its end: what it showed is gone, and it gets no close from now on.
    pub fn open(&mut self) {
        self.state = lent::open_log(self.state);
    }

    /// Takes the next record, a word for each variable: the close, if this record closes the sounding. Refuses 4 for fewer words, and for
    /// more.
    ///
    /// ```
    /// use simjaldek::{Close, FormulaBuf, Log, RankedRule, Window};
    ///
    /// let formula: FormulaBuf = "v0 v1 ^".parse()?;
    /// let window = Window { least: 2, records: 3 };
    /// let mut log = Log::new(2, 16, &[RankedRule { rank: 4, formula: formula.as_formula(), window }])?;
    /// log.open();
    /// assert_eq!(log.record(&[7, 6])?, None);
    /// assert_eq!(log.record(&[7, 7])?, None);
    /// assert_eq!(log.record(&[7, 8])?, Some(Close { number: 3, rank: 4 }));
    /// assert!(log.record(&[7]).is_err() && log.record(&[7, 8, 9, 9]).is_err());
    /// assert_eq!(log.number(), 3);
    /// # Ok::<(), Box<dyn std::error::Error>>(())
    /// ```
    pub fn record(&mut self, record: &[u64]) -> Result<Option<Close>, Refusal> {
        if record.len() != self.num_vars as usize {
            return Err(Refusal::ShortArray);
        }
        self.records(record)
    }

    /// Takes these records, one after the other: the close, if one of them closes the sounding. Refuses 4 for a slice that ends within a
    /// record: no word is dropped in silence. Then none of its records was taken.
    pub fn records(&mut self, records: &[u64]) -> Result<Option<Close>, Refusal> {
        let before = self.close();
        self.state = self.run(Records::all(self.num_vars, records))?;
        Ok(self.close().filter(|_| before.is_none()))
    }

    /// Whether a sounding is open.
    pub fn is_open(&self) -> bool {
        self.state.is_open()
    }

    /// The number of the sounding's last record, from 1; 0 before the first. It stays at 2^64 - 1.
    pub fn number(&self) -> u64 {
        self.state.number
    }

    /// The sounding's close; none as long as no rule has fired.
    pub fn close(&self) -> Option<Close> {
        self.state.close()
    }

    /// How many records after the close had a firing. It stays at 2^64 - 1.
    pub fn later(&self) -> u64 {
        self.state.later
    }

    /// All that it has seen; the empty log before the first opening.
    ///
    /// ```
    /// use simjaldek::{FormulaBuf, Log, LogState, RankedRule, Window};
    ///
    /// let formula: FormulaBuf = "v0".parse()?;
    /// let window = Window { least: 1, records: 1 };
    /// let mut log = Log::new(1, 16, &[RankedRule { rank: 3, formula: formula.as_formula(), window }])?;
    /// assert_eq!(log.state(), LogState::default());
    /// log.open();
    /// log.records(&[0, 7, 0, 7])?;
    /// let windows = [0b0101, 0, 0, 0, 0, 0, 0, 0];
    /// let shown = LogState { open: 1, rank: 3, number: 4, closed_at: 2, later: 1, windows };
    /// assert_eq!(log.state(), shown);
    /// # Ok::<(), Box<dyn std::error::Error>>(())
    /// ```
    pub fn state(&self) -> LogState {
        self.state
    }

    /// Goes on from the [`state`](Log::state) of a log, such as one that was stored; any numbers are one. It says nothing of its rules: that
    /// they were of the same formulas and width, each in the same place, is for the caller to see to. Ranks and windows may be others.
    ///
    /// ```
    /// use simjaldek::{Close, FormulaBuf, Log, RankedRule, Window};
    ///
    /// let formula: FormulaBuf = "v0".parse()?;
    /// let window = Window { least: 3, records: 4 };
    /// let rules = [RankedRule { rank: 1, formula: formula.as_formula(), window }];
    /// let mut log = Log::new(1, 16, &rules)?;
    /// log.open();
    /// log.records(&[7, 7, 0])?;
    /// let stored = log.state();
    ///
    /// let mut later = Log::new(1, 16, &rules)?;
    /// later.resume(stored);
    /// assert_eq!(later, log);
    /// assert_eq!(later.record(&[7])?, Some(Close { number: 4, rank: 1 }));
    /// # Ok::<(), Box<dyn std::error::Error>>(())
    /// ```
    pub fn resume(&mut self, state: LogState) {
        self.state = state;
    }

    /// How many variables: the words of a record.
    pub fn num_vars(&self) -> u32 {
        self.num_vars
    }

    /// The width in bits.
    pub fn width(&self) -> u32 {
        self.width
    }

    /// The rules, by their places.
    pub fn rules(&self) -> impl Iterator<Item = RankedRule<'_>> {
        (0..self.rules.ranks.len()).map(|place| self.rules.rule(place))
    }

    /// The log after the records.
    fn run(&self, records: Records<'_>) -> Result<LogState, Refusal> {
        let rules = self.rules.lend();
        lent::run_log(self.num_vars, self.width, rules, self.state, records)
    }
}

/// Rules as the lent call takes them; of a formula that is too long the first 64 tokens, beside how many it has.
#[derive(Clone, Debug, PartialEq, Eq)]
struct Arrays {
    ranks: Vec<u32>,
    ms: Vec<u32>,
    windows: Vec<u32>,
    token_counts: Vec<u32>,
    ops: Vec<u8>,
    operands: Vec<u64>,
}

impl Arrays {
    fn new(rules: &[RankedRule<'_>]) -> Self {
        let each = |number: fn(&RankedRule<'_>) -> u32| rules.iter().map(number).collect();
        Arrays {
            ranks: each(|rule| rule.rank),
            ms: each(|rule| rule.window.least),
            windows: each(|rule| rule.window.records),
            token_counts: each(|rule| rule.formula.len().try_into().unwrap_or(u32::MAX)),
            ops: padded(rules.iter().map(|rule| rule.formula.ops())),
            operands: padded(rules.iter().map(|rule| rule.formula.operands())),
        }
    }

    fn lend(&self) -> Rules<'_> {
        Rules {
            count: self.ranks.len(),
            ranks: &self.ranks,
            ms: &self.ms,
            windows: &self.windows,
            token_counts: &self.token_counts,
            ops: &self.ops,
            operands: &self.operands,
        }
    }

    /// The rule at a place, its formula of at most 64 tokens.
    fn rule(&self, place: usize) -> RankedRule<'_> {
        let from = FORMULA_TOKENS_MAX * place;
        let to = from + self.token_counts[place] as usize;
        RankedRule {
            rank: self.ranks[place],
            formula: Formula::new(&self.ops[from..to], &self.operands[from..to])
                .expect("as many of each"),
            window: Window {
                least: self.ms[place],
                records: self.windows[place],
            },
        }
    }
}

/// The first 64 of each part, one after the other, zeros in the places that are left.
fn padded<'a, T: Copy + Default + 'a>(parts: impl Iterator<Item = &'a [T]>) -> Vec<T> {
    let mut places = Vec::with_capacity(LOG_RULES_MAX * FORMULA_TOKENS_MAX);
    for (place, part) in parts.enumerate() {
        places.extend(part.iter().take(FORMULA_TOKENS_MAX));
        places.resize(FORMULA_TOKENS_MAX * (place + 1), T::default());
    }
    places
}
