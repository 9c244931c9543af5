//! The candidates: the product filter as a call. The Rust's side does the same in plain Rust over the same arrays: the tests, the least
//! solution, and each solution looked up in the order list. Beside it stands the original `collect_mul_probe0_candidates` after the same
//! tests, over buckets that are made before.

use std::hint::black_box;

use oracle::access::{self, Inner, Row};
use oracle::made::banks::largest;
use oracle::spec::product::{order_list, product_word};
use simjaldek::lent::{self, Pairs};
use simjaldek::{PAIRS_MAX, ROW_WORDS};

use crate::measure::{alternate, together, Plan, Times};
use crate::searches::is_order_list;
use crate::setting::inputs;
use crate::{Call, Setting};

/// The most trailing zeros of p with which the filter is used.
const ZEROS_MAX: u32 = 8;
/// So few pairs that the test of their order list takes little.
const FEW_PAIRS: usize = 64;

/// Times the filter with one key and with as many as there may be, and these over few pairs too.
pub fn time(plan: &Plan, setting: &Setting, take: &mut impl FnMut(Call, String, Times)) {
    let few = FewPairs::new(setting);
    for (call, equation) in equations(setting, &few) {
        let listed = check_equation(call, &equation);
        let (mut list, mut plain, mut kept) = (equation.list(), equation.list(), Vec::new());
        let mut ours = together(|| our_candidates(black_box(&equation), &mut list));
        let mut same = together(|| plain_candidates(black_box(&equation), &mut plain));
        let mut rust = together(|| rust_candidates(black_box(&equation), &mut kept));
        let times = alternate(plan, &mut ours, &mut same);
        take(call, note(&equation, listed), times);
        let times = alternate(plan, &mut ours, &mut rust);
        take(Call::CandidatesBuckets, note(&equation, listed), times);
    }
}

/// All sides list the same.
pub fn check(setting: &Setting) {
    let few = FewPairs::new(setting);
    for (call, equation) in equations(setting, &few) {
        check_equation(call, &equation);
    }
}

/// How many slots all sides list; there are as many keys as the call is named after, and the pair that t was made of is listed.
fn check_equation(call: Call, equation: &Equation<'_>) -> usize {
    let answer = rust_answer(equation);
    assert_eq!(our_answer(equation), answer);
    assert_eq!(plain_answer(equation), answer);
    let slots = answer.expect("at most 256 keys");
    let is_one = call == Call::CandidatesOne;
    assert_eq!(equation.keys() == 1, is_one, "{call:?}");
    assert!(slots.contains(&equation.middle()), "{call:?}");
    slots.len()
}

fn note(equation: &Equation<'_>, listed: usize) -> String {
    let pairs = equation.pairs.count;
    match equation.keys() {
        1 => format!("{pairs} pairs, one key, {listed} listed"),
        keys => format!("{pairs} pairs, {keys} keys, {listed} listed"),
    }
}

/// What the sides are handed: our arrays of some pairs, the Rust's buckets of the same pairs, and p and t.
#[derive(Clone, Copy)]
struct Equation<'a> {
    width: u32,
    pairs: Pairs<'a>,
    inner: &'a Inner,
    p: u64,
    t: u64,
}

impl<'a> Equation<'a> {
    /// With t = p × f, f the first word of the middle pair.
    fn new(width: u32, pairs: Pairs<'a>, inner: &'a Inner, p: u64) -> Self {
        let mut made = Equation {
            width,
            pairs,
            inner,
            p,
            t: 0,
        };
        made.t = product_word(p, pairs.rows[ROW_WORDS * made.middle()], width);
        made
    }

    fn middle(&self) -> usize {
        self.pairs.count / 2
    }

    /// How many solutions there are below 2^w, where p isn't 0 and there is one.
    fn keys(&self) -> u64 {
        1 << self.p.trailing_zeros()
    }

    /// A list to lend: a place for each pair.
    fn list(&self) -> Vec<u32> {
        vec![0; self.pairs.count]
    }

    /// What refusals 2, 4, 5, 7 and 8 test, but for the lent list, which is made as long as there are pairs.
    fn is_fit(&self) -> bool {
        let Equation { width, pairs, .. } = self;
        (1..=64).contains(width)
            && pairs.rows.len() / ROW_WORDS >= pairs.count
            && pairs.order.len() >= pairs.count
            && self.p <= largest(*width)
            && self.t <= largest(*width)
            && pairs.count <= PAIRS_MAX
            && is_order_list(pairs.rows, &pairs.order[..pairs.count])
    }
}

/// Our side: how many are listed, if the filter is used.
fn our_candidates(equation: &Equation<'_>, list: &mut [u32]) -> Option<usize> {
    let Equation { width, pairs, .. } = *equation;
    let listed = lent::candidates(width, pairs, equation.p, equation.t, list);
    listed.expect("the arrays are fit")
}

/// Plain Rust: the same. What is refused is tested first.
fn plain_candidates(equation: &Equation<'_>, list: &mut [u32]) -> Option<usize> {
    assert!(equation.is_fit());
    let Equation { width, p, t, .. } = *equation;
    if p == 0 {
        return (t != 0).then_some(0);
    }
    let zeros = p.trailing_zeros();
    if t.trailing_zeros() < zeros {
        return Some(0);
    }
    (zeros <= ZEROS_MAX).then(|| {
        let bits = width - zeros;
        let inverse = access::mod_inverse_odd(p >> zeros, bits);
        let least = inverse.wrapping_mul(t >> zeros) & largest(bits);
        list_solutions(equation, least, bits, list)
    })
}

/// Lists the slots whose first words leave `least` modulo 2^bits: those below 2^w word after word, and after them one by one.
fn list_solutions(equation: &Equation<'_>, least: u64, bits: u32, list: &mut [u32]) -> usize {
    let Equation { width, pairs, .. } = *equation;
    let order = &pairs.order[..pairs.count];
    let first_word = |slot: u32| pairs.rows[ROW_WORDS * slot as usize];
    let (mut at, mut count) = (0, 0);
    for number in 0..1 << (width - bits) {
        let word = least | u64::checked_shl(number, bits).unwrap_or(0);
        if at == order.len() {
            break;
        }
        if first_word(order[at]) < word {
            at += order[at..].partition_point(|&slot| first_word(slot) < word);
        }
        while at < order.len() && first_word(order[at]) == word {
            list[count] = order[at];
            (at, count) = (at + 1, count + 1);
        }
    }
    let reaches = |&slot: &u32| first_word(slot) > largest(width);
    if order.last().is_some_and(reaches) {
        for &slot in order[at..].iter().filter(|&slot| reaches(slot)) {
            if first_word(slot) & largest(bits) == least {
                list[count] = slot;
                count += 1;
            }
        }
    }
    count
}

/// The Rust's side: whether the filter is used. What is refused is tested first.
fn rust_candidates(equation: &Equation<'_>, list: &mut Vec<usize>) -> bool {
    assert!(equation.is_fit());
    let Equation { inner, p, t, .. } = *equation;
    inner.candidates(p, t, equation.width, list)
}

/// Our list.
fn our_answer(equation: &Equation<'_>) -> Option<Vec<usize>> {
    let mut list = equation.list();
    let count = our_candidates(equation, &mut list)?;
    Some(slots(&list[..count]))
}

/// Plain Rust's list.
fn plain_answer(equation: &Equation<'_>) -> Option<Vec<usize>> {
    let mut list = equation.list();
    let count = plain_candidates(equation, &mut list)?;
    Some(slots(&list[..count]))
}

fn slots(list: &[u32]) -> Vec<usize> {
    list.iter().map(|&slot| slot as usize).collect()
}

/// The Rust's list.
fn rust_answer(equation: &Equation<'_>) -> Option<Vec<usize>> {
    let mut list = Vec::new();
    rust_candidates(equation, &mut list).then_some(list)
}

/// The first pairs of an index, with an order list and buckets of their own.
struct FewPairs {
    rows: Vec<Row>,
    order: Vec<u32>,
    inner: Inner,
}

impl FewPairs {
    fn new(setting: &Setting) -> Self {
        let count = FEW_PAIRS.min(setting.ours.built.pairs);
        let rows: Vec<Row> = (0..count).map(|slot| setting.ours.pair_row(slot)).collect();
        let first_words: Vec<u64> = rows.iter().map(|row| row[0]).collect();
        let order = order_list(&first_words).into_iter();
        FewPairs {
            order: order.map(|slot| slot as u32).collect(),
            inner: Inner::of_rows(&rows),
            rows,
        }
    }

    fn pairs(&self) -> Pairs<'_> {
        Pairs {
            count: self.rows.len(),
            rows: self.rows.as_flattened(),
            order: &self.order,
        }
    }
}

/// An odd p, and the same times 2^8 over all pairs and over few; at width 8 times 2^7.
fn equations<'a>(setting: &'a Setting, few: &'a FewPairs) -> [(Call, Equation<'a>); 3] {
    let Setting { width, inner, .. } = setting;
    let odd = inputs(setting.num_vars, *width, 7).word_of_width(*width) | 1;
    let even = (odd << ZEROS_MAX.min(width - 1)) & largest(*width);
    let pairs = setting.ours.pairs().ordered();
    let over_all = |p| Equation::new(*width, pairs, inner, p);
    let over_few = |p| Equation::new(*width, few.pairs(), &few.inner, p);
    [
        (Call::CandidatesOne, over_all(odd)),
        (Call::CandidatesMany, over_all(even)),
        (Call::CandidatesFewPairs, over_few(even)),
    ]
}

#[cfg(test)]
mod tests {
    use super::{equations, inputs, largest, lent, our_answer, plain_answer};
    use super::{product_word, rust_answer};
    use super::{Equation, FewPairs, Inner, Pairs, PAIRS_MAX, ROW_WORDS};
    use crate::Setting;
    use oracle::spec::product;

    /// As many words solve an equation as it has keys; no more than a filter takes.
    #[test]
    fn keys() {
        for (width, most) in [(8, 128), (32, 256), (64, 256)] {
            let setting = Setting::new(1, width);
            let few = FewPairs::new(&setting);
            assert_eq!(few.pairs().count, 64);
            let equations = equations(&setting, &few).map(|(_, equation)| equation);
            assert_eq!(equations.map(|equation| equation.keys()), [1, most, most]);
            if width == 8 {
                for equation in equations {
                    let solves = |&f: &u64| product_word(equation.p, f, width) == equation.t;
                    let solutions = (0..1 << width).filter(solves).count();
                    assert_eq!(solutions as u64, equation.keys());
                }
            }
        }
    }

    /// All sides list what trying everything lists, with any count of trailing zeros.
    #[test]
    fn any_equation() {
        let mut counts = [0; 3];
        for width in [2, 8, 9, 32, 64] {
            let setting = Setting::new(1, width);
            let few = FewPairs::new(&setting);
            let first_words: Vec<u64> = few.rows.iter().map(|row| row[0]).collect();
            let inputs = &mut inputs(1, width, 8);
            for zeros in 0..=width.min(10) {
                let p = ((inputs.word_of_width(width) | 1) << zeros) & largest(width);
                let mut equation = Equation::new(width, few.pairs(), &few.inner, p);
                for t in [equation.t, 0, inputs.word_of_width(width)] {
                    equation.t = t;
                    let answer = product::candidates(&first_words, p, t, width);
                    assert_eq!(our_answer(&equation), answer);
                    assert_eq!(plain_answer(&equation), answer);
                    assert_eq!(rust_answer(&equation), answer);
                    counts[answer.map_or(0, |slots| 1 + usize::from(!slots.is_empty()))] += 1;
                }
            }
        }
        assert!(counts.iter().all(|&count| count > 5), "{counts:?}");
    }

    /// Whether an equation over rows of zeros is fit, which both sides say alike.
    fn is_fit(width: u32, pairs: Pairs<'_>, p: u64, t: u64) -> bool {
        let equation = Equation {
            width,
            pairs,
            inner: &Inner::of_rows(&[]),
            p,
            t,
        };
        let listed = lent::candidates(width, pairs, p, t, &mut equation.list());
        assert_eq!(listed.is_ok(), equation.is_fit());
        equation.is_fit()
    }

    #[test]
    fn what_is_fit() {
        let rows = &vec![0; ROW_WORDS * (PAIRS_MAX + 1)][..];
        let order = &(0..=PAIRS_MAX as u32).collect::<Vec<u32>>()[..];
        let pairs = |count, rows, order| Pairs { count, rows, order };
        let all = pairs(PAIRS_MAX, rows, order);
        assert!(is_fit(8, all, 255, 255));
        for (width, p, t) in [(0, 0, 0), (65, 0, 0), (8, 256, 0), (8, 0, 256)] {
            assert!(!is_fit(width, all, p, t), "{width} {p} {t}");
        }
        assert!(!is_fit(8, pairs(2, &rows[..31], order), 1, 0));
        assert!(!is_fit(8, pairs(2, rows, &order[..1]), 1, 0));
        assert!(!is_fit(8, pairs(2, rows, &[1, 0]), 1, 0));
        assert!(!is_fit(8, pairs(PAIRS_MAX + 1, rows, order), 1, 0));
    }
}
