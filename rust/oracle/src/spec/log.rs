//! The closing log, by the request's words: of a sounding's records the first on which some rule fires closes it, with the least rank that
//! fires; later ones with a firing are counted. Whether a rule fires is a fresh count for each record (`super::rule`).

use super::rule::Rule;

/// The most rules, and the windows of a log.
pub const RULES_MAX: usize = 8;

/// A rule with its rank; the smaller rank wins.
#[derive(Clone, Debug)]
pub struct Ranked {
    pub rank: u32,
    pub rule: Rule,
}

/// A log: whether a sounding is open (0 for no), the rank that closed it, the number of its last record and of the one that closed it, how
/// many later ones had a firing, and the state of each rule's run.
#[derive(Clone, Copy, Debug, Default, PartialEq, Eq)]
pub struct Log {
    pub open: u32,
    pub rank: u32,
    pub number: u64,
    pub closed_at: u64,
    pub later: u64,
    pub windows: [u64; RULES_MAX],
}

impl Log {
    /// The log after an opening.
    pub fn opened() -> Self {
        Self::of_sounding(&[], &[])
    }

    /// The log of a sounding that has had these records, from its opening on.
    pub fn of_sounding(rules: &[Ranked], records: &[u64]) -> Self {
        let (ranks, windows) = fired(rules, [0; RULES_MAX], records);
        let numbered = (1..).zip(&ranks);
        let mut firing = numbered.filter_map(|(number, rank)| Some((number, (*rank)?)));
        let (closed_at, rank) = firing.next().unwrap_or((0, 0));
        Log {
            open: 1,
            rank,
            number: ranks.len() as u64,
            closed_at,
            later: firing.count() as u64,
            windows,
        }
    }

    /// Any log after these records, one after the other.
    pub fn run(mut self, rules: &[Ranked], records: &[u64]) -> Self {
        if self.open == 0 {
            return self;
        }
        let (ranks, windows) = fired(rules, self.windows, records);
        self.open = 1;
        self.windows = windows;
        for rank in ranks {
            self.number = one_more(self.number);
            match rank {
                None => {}
                Some(rank) if self.closed_at == 0 => {
                    self.rank = rank;
                    self.closed_at = self.number;
                }
                Some(_) => self.later = one_more(self.later),
            }
        }
        self
    }
}

/// A number more, but for the greatest.
fn one_more(number: u64) -> u64 {
    u64::try_from(u128::from(number) + 1).unwrap_or(number)
}

/// For each record the least rank of the rules that fire on it, each after what its window has seen; and what the windows have seen then.
fn fired(
    rules: &[Ranked],
    mut windows: [u64; RULES_MAX],
    records: &[u64],
) -> (Vec<Option<u32>>, [u64; RULES_MAX]) {
    let num_vars = rules.first().map_or(1, |ranked| ranked.rule.num_vars);
    let mut ranks: Vec<Option<u32>> = vec![None; records.len() / num_vars];
    for (Ranked { rank, rule }, window) in rules.iter().zip(&mut windows) {
        let ran = rule.run(*window, records);
        *window = ran.state;
        for (least, answer) in ranks.iter_mut().zip(ran.answers) {
            if answer == 1 {
                *least = Some(least.map_or(*rank, |least| least.min(*rank)));
            }
        }
    }
    (ranks, windows)
}

#[cfg(test)]
mod tests {
    use super::{Log, Ranked};
    use crate::inputs::Inputs;
    use crate::made::formulas::left_chain;
    use crate::made::logs;
    use crate::spec::formulas::{AND, CONSTANT, VARIABLE};
    use crate::spec::rule::Rule;

    /// A rule that fires where the bit was set in M of the last W records.
    fn bit(rank: u32, bit: u32, m: usize, window: usize) -> Ranked {
        let formula = left_chain(&[(VARIABLE, 0), (CONSTANT, 1 << bit)], &[AND]);
        let rule = Rule {
            formula,
            num_vars: 1,
            width: 8,
            m,
            window,
        };
        Ranked { rank, rule }
    }

    /// Number, closing record and rank, later ones.
    fn told(log: Log) -> (u64, u64, u32, u64) {
        (log.number, log.closed_at, log.rank, log.later)
    }

    /// Two of three for rank 2, which comes first, and two of two for rank 1.
    #[test]
    fn by_hand() {
        let rules = [bit(2, 0, 2, 3), bit(1, 1, 2, 2)];
        let told_of = |records: &[u64]| told(Log::of_sounding(&rules, records));
        assert_eq!(told_of(&[]), (0, 0, 0, 0));
        assert_eq!(told_of(&[1, 0, 2, 1]), (4, 0, 0, 0));
        assert_eq!(told_of(&[3, 3]), (2, 2, 1, 0));
        assert_eq!(told_of(&[1, 3, 2, 0, 0]), (5, 2, 2, 1));
        assert_eq!(told_of(&[1, 0, 1, 3, 3]), (5, 3, 2, 2));
        let log = Log::of_sounding(&rules, &[1, 0, 1, 3, 3]);
        assert_eq!(log.windows[..3], [0b10111, 0b11, 0]);
    }

    /// No opening; counters at their ends; a close that no run gives.
    #[test]
    fn handed_in() {
        let rules = [bit(4, 0, 1, 1)];
        let none = Log {
            number: 9,
            windows: [7; 8],
            ..Log::default()
        };
        assert_eq!(none.run(&rules, &[1, 1]), none);
        let mut log = Log {
            open: 7,
            number: u64::MAX - 1,
            later: u64::MAX - 1,
            windows: [7; 8],
            ..Log::default()
        };
        let after = log.run(&rules, &[0, 0, 1, 1, 1]);
        assert_eq!(told(after), (u64::MAX, u64::MAX, 4, u64::MAX));
        assert_eq!(
            (after.open, after.windows[0], after.windows[1]),
            (1, 0b11100111, 7)
        );
        (log.closed_at, log.rank) = (3, 99);
        assert_eq!(told(log.run(&rules, &[1])), (u64::MAX, 3, 99, u64::MAX));
    }

    /// From an opening, in parts, the step is the statement of the sounding.
    #[test]
    fn cut() {
        let inputs = &mut Inputs::from_seed(1);
        let (mut closed, mut later) = (0, 0);
        for turn in 0..200 {
            let (num_vars, width) = (1 + turn % 3, 8);
            let count = 1 + inputs.below(8) as usize;
            let rules = logs::rules(inputs, num_vars, width, count);
            let records = logs::records(inputs, &rules, 60);
            let cut = num_vars * inputs.below(61) as usize;
            let (first, second) = records.split_at(cut);
            let parts = Log::opened().run(&rules, first).run(&rules, second);
            assert_eq!(parts, Log::of_sounding(&rules, &records));
            closed += usize::from(parts.closed_at > 0);
            later += usize::from(parts.later > 0);
        }
        assert!(
            (50..190).contains(&closed) && later > 40,
            "{closed} {later}"
        );
    }
}
