//! What was compared, and what differed.

use std::collections::BTreeMap;
use std::fmt::{self, Debug};

/// Differences that are told in full.
const TOLD: usize = 50;
/// Characters of an input or a result that are told.
const TEXT: usize = 1500;

/// What a comparison is about.
#[derive(Clone, Copy, Debug, PartialEq, Eq, PartialOrd, Ord)]
pub enum Kind {
    /// Count and five arrays of a bank, places beyond the count too.
    Bank,
    FindRow,
    AtomRow,
    /// Count, mark "cut" and three arrays of an index, places beyond the count too; over words below 2^w.
    Index,
    /// The same over other words, against the plain statement.
    PlainIndex,
    /// Used or not, the list, and its places beyond the count.
    Candidates,
    /// The product search's answer, against trying everything and keeping the least.
    ProductTrials,
    /// The same against the originals' two loops, each to its end.
    LeastProduct,
    /// The same against the originals' cheapest two atoms, where there are two.
    TwoAtoms,
    /// The same where no two atoms fit, against the originals' product loop: whether there is one, and whether ours is cheaper.
    ProductLoop,
    /// The residual search's answer over words below 2^w, against the originals' loop.
    ResidualSearch,
    /// The same against the plain statement, where that is short; over other words always.
    ResidualTrials,
    /// Whether something is found, and gives the target, against all atoms a, b, c and gates; where the index is whole.
    ResidualNothing,
    Value,
    Cost,
    IsBetter,
    FormulaRow,
    /// Whether tokens are a formula, against the plain statement.
    FormulaTest,
    /// A token at a place, against the plain statement.
    Token,
    /// A formula drawn, both token arrays and the state handed on, against the plain statement; its value and cost.
    DrawnFormula,
    /// The same for each of ten thousand, up to the first that differs.
    DrawnLoad,
    /// A rule's answers to records, places beyond them too, and the state handed on, from any state; against the plain statement.
    RuleCall,
    /// All answers and the last state of a run from the empty state that is cut into calls, against the plain statement of the whole run.
    RuleRun,
    /// A closing log opened, and after records, from any log; against the plain statement.
    LogCall,
    /// The log after each call of a run of opens and records from the empty log, against the plain statement of its last sounding.
    LogRun,
    Points,
    Splitmix,
    Fingerprint,
    Bitmask,
    /// The sums modulo 2^w of arith.rs.
    Sums,
    /// Against the stand-in.
    Inverse,
    /// The listing's text of the Rust's bank and index, and of what the table refuses.
    Listing,
    /// A gate on rows, a residual, a match: of words below 2^w.
    Gate,
    Residual,
    Match,
    /// The same of any words, against the plain statement.
    PlainGate,
    PlainResidual,
    PlainMatch,
    /// Refusals of a call, and that a refused call leaves its buffers alone.
    RefusedBank,
    RefusedIndex,
    RefusedCandidates,
    RefusedProduct,
    RefusedResidual,
    RefusedFindRow,
    RefusedAtomRow,
    RefusedValue,
    RefusedCost,
    RefusedFormulaRow,
    RefusedDraw,
    RefusedRule,
    RefusedLog,
    RefusedPoints,
    RefusedGate,
    RefusedFingerprint,
}

impl Kind {
    /// Every kind, in order.
    pub const ALL: [Kind; 54] = [
        Kind::Bank,
        Kind::FindRow,
        Kind::AtomRow,
        Kind::Index,
        Kind::PlainIndex,
        Kind::Candidates,
        Kind::ProductTrials,
        Kind::LeastProduct,
        Kind::TwoAtoms,
        Kind::ProductLoop,
        Kind::ResidualSearch,
        Kind::ResidualTrials,
        Kind::ResidualNothing,
        Kind::Value,
        Kind::Cost,
        Kind::IsBetter,
        Kind::FormulaRow,
        Kind::FormulaTest,
        Kind::Token,
        Kind::DrawnFormula,
        Kind::DrawnLoad,
        Kind::RuleCall,
        Kind::RuleRun,
        Kind::LogCall,
        Kind::LogRun,
        Kind::Points,
        Kind::Splitmix,
        Kind::Fingerprint,
        Kind::Bitmask,
        Kind::Sums,
        Kind::Inverse,
        Kind::Listing,
        Kind::Gate,
        Kind::Residual,
        Kind::Match,
        Kind::PlainGate,
        Kind::PlainResidual,
        Kind::PlainMatch,
        Kind::RefusedBank,
        Kind::RefusedIndex,
        Kind::RefusedCandidates,
        Kind::RefusedProduct,
        Kind::RefusedResidual,
        Kind::RefusedFindRow,
        Kind::RefusedAtomRow,
        Kind::RefusedValue,
        Kind::RefusedCost,
        Kind::RefusedFormulaRow,
        Kind::RefusedDraw,
        Kind::RefusedRule,
        Kind::RefusedLog,
        Kind::RefusedPoints,
        Kind::RefusedGate,
        Kind::RefusedFingerprint,
    ];
}

/// The differences that docs/DIFFERENCES.md has.
#[derive(Clone, Copy)]
pub enum Known {
    D1,
    D2,
}

/// The numbers of one kind.
#[derive(Clone, Copy, Default)]
struct Tally {
    comparisons: u64,
    d1: u64,
    d2: u64,
    others: u64,
}

/// The tallies of a run, and its differences.
pub struct Report {
    seed: u64,
    round: u64,
    tallies: BTreeMap<Kind, Tally>,
    /// Refused calls by the table's number; the first place has the calls that were answered.
    refusals: [u64; 12],
    /// How often something came up that a run should reach.
    reached: BTreeMap<&'static str, u64>,
    differences: Vec<String>,
}

impl Report {
    pub fn new(seed: u64) -> Self {
        Self {
            seed,
            round: 0,
            tallies: BTreeMap::new(),
            refusals: [0; 12],
            reached: BTreeMap::new(),
            differences: Vec::new(),
        }
    }

    /// What follows is of this round.
    pub fn begin(&mut self, round: u64) {
        self.round = round;
    }

    /// How many results were compared.
    pub fn comparisons(&self) -> u64 {
        self.tallies.values().map(|tally| tally.comparisons).sum()
    }

    /// How many comparisons there were of a kind.
    pub fn of_kind(&self, kind: Kind) -> u64 {
        self.tallies.get(&kind).map_or(0, |tally| tally.comparisons)
    }

    /// How many results differed in a way that docs/DIFFERENCES.md doesn't have.
    pub fn others(&self) -> u64 {
        self.tallies.values().map(|tally| tally.others).sum()
    }

    /// One result compared.
    pub fn compare<T: PartialEq + Debug>(
        &mut self,
        kind: Kind,
        input: &impl Debug,
        ours: &T,
        theirs: &T,
    ) {
        self.tally(kind).comparisons += 1;
        if ours != theirs {
            self.differ(kind, input, ours, theirs);
        }
    }

    /// One result compared that differs as D1 or D2 says.
    pub fn known(&mut self, kind: Kind, known: Known) {
        let tally = self.tally(kind);
        tally.comparisons += 1;
        match known {
            Known::D1 => tally.d1 += 1,
            Known::D2 => tally.d2 += 1,
        }
    }

    /// One refusal compared: our number, and whether a refused call left its buffers alone.
    pub fn refusal(&mut self, kind: Kind, input: &impl Debug, ours: (u64, bool), expected: u64) {
        self.refusals[expected as usize] += 1;
        self.compare(kind, input, &ours, &(expected, true));
    }

    /// Counts something that came up, if it did.
    pub fn reach(&mut self, name: &'static str, came_up: bool) {
        *self.reached.entry(name).or_default() += u64::from(came_up);
    }

    /// The same of several things.
    pub fn reach_each(&mut self, all: &[(&'static str, bool)]) {
        for &(name, came_up) in all {
            self.reach(name, came_up);
        }
    }

    fn tally(&mut self, kind: Kind) -> &mut Tally {
        self.tallies.entry(kind).or_default()
    }

    fn differ(&mut self, kind: Kind, input: &impl Debug, ours: &impl Debug, theirs: &impl Debug) {
        self.tally(kind).others += 1;
        if self.differences.len() < TOLD {
            let [input, ours, theirs] = [told(input), told(ours), told(theirs)];
            self.differences.push(format!(
                "seed {} round {}, {kind:?}\n  input {input}\n  ours {ours}\n  theirs {theirs}",
                self.seed, self.round
            ));
        }
    }
}

/// A value as text, its end left out where it is long.
fn told(value: &impl Debug) -> String {
    let text = format!("{value:?}");
    match text.char_indices().nth(TEXT) {
        Some((end, _)) => format!("{} ..", &text[..end]),
        None => text,
    }
}

/// A line for each kind, their sum, the refusals by number, what came up, then every difference with its input.
impl fmt::Display for Report {
    fn fmt(&self, f: &mut fmt::Formatter<'_>) -> fmt::Result {
        writeln!(
            f,
            "{:20}{:>12}{:>9}{:>9}{:>9}",
            "kind", "comparisons", "D1", "D2", "others"
        )?;
        let mut sum = Tally::default();
        for (kind, tally) in &self.tallies {
            line(f, &format!("{kind:?}"), tally)?;
            sum = sum.and(tally);
        }
        line(f, "all", &sum)?;
        let numbers = &self.refusals[1..];
        writeln!(
            f,
            "calls refused, by number 1 to 11 (9 is of programs alone): {numbers:?}; answered beside them: {}",
            self.refusals[0]
        )?;
        for (name, count) in &self.reached {
            writeln!(f, "{name}: {count}")?;
        }
        writeln!(f, "seed {}, last round {}", self.seed, self.round)?;
        self.differences
            .iter()
            .try_for_each(|text| writeln!(f, "{text}"))
    }
}

fn line(f: &mut fmt::Formatter<'_>, name: &str, tally: &Tally) -> fmt::Result {
    let Tally {
        comparisons,
        d1,
        d2,
        others,
    } = tally;
    writeln!(f, "{name:20}{comparisons:>12}{d1:>9}{d2:>9}{others:>9}")
}

impl Tally {
    fn and(self, other: &Tally) -> Tally {
        Tally {
            comparisons: self.comparisons + other.comparisons,
            d1: self.d1 + other.d1,
            d2: self.d2 + other.d2,
            others: self.others + other.others,
        }
    }
}

#[cfg(test)]
mod tests {
    use super::{Kind, Known, Report};

    /// A difference is counted and told with seed, round, input and both results; a known one is only counted.
    #[test]
    fn differences() {
        let mut report = Report::new(11);
        report.begin(22);
        report.compare(Kind::Value, &33, &44, &44);
        report.known(Kind::TwoAtoms, Known::D2);
        assert_eq!((report.comparisons(), report.others()), (2, 0));
        report.compare(Kind::Value, &33, &44, &55);
        assert_eq!((report.comparisons(), report.others()), (3, 1));
        let text = report.to_string();
        let told = "seed 11 round 22, Value\n  input 33\n  ours 44\n  theirs 55\n";
        assert!(text.ends_with(told), "{text}");
    }

    /// A wrong number is a difference, and so is a buffer that a refused call has changed.
    #[test]
    fn refusals() {
        let mut report = Report::new(1);
        report.refusal(Kind::RefusedBank, &(), (4, true), 4);
        assert_eq!(report.others(), 0);
        report.refusal(Kind::RefusedBank, &(), (4, false), 4);
        report.refusal(Kind::RefusedBank, &(), (5, true), 4);
        report.refusal(Kind::RefusedBank, &(), (0, true), 4);
        assert_eq!(report.others(), 3);
    }
}
