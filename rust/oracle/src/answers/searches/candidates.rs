//! Lines of kind 15: lists of candidates, the Rust's held against the specification's; then what is refused.

use crate::access;

use super::CANDIDATES;
use crate::answers::data_file::{DataFile, NUMBERS_MAX};
use crate::inputs::Inputs;
use crate::made::banks::largest;
use crate::spec::lent::{Candidates, Pairs};
use crate::spec::product as spec;
use crate::spec::refusals::{NONE, REFUSED_ORDER, REFUSED_WIDTH, REFUSED_WORD};

const USED: u64 = 0;
const NOT_USED: u64 = 1;
/// A refusal r is this number plus r.
const REFUSED: u64 = 100;
const PAIRS_MAX: usize = 200;
/// About how many bytes of a line the words and the order list take at most.
const BYTES: usize = 640;
/// How many of the first and of the last keys of a class stand in a line.
const KEYS_SHOWN: u128 = 12;

/// First words of pairs, and an equation p × f = t.
#[derive(Clone)]
struct Input {
    width: u32,
    words: Vec<u64>,
    p: u64,
    t: u64,
}

impl Input {
    /// With exact arrays and this order list.
    fn handed(&self, order: Vec<u64>) -> Candidates {
        let count = self.words.len() as u64;
        let pairs = Pairs {
            count,
            rows: 16 * count,
            first_words: self.words.clone(),
            order,
        };
        Candidates {
            width: self.width.into(),
            pairs,
            p: self.p,
            t: self.t,
            list: count,
        }
    }

    fn order(&self) -> Vec<u64> {
        numbers(spec::order_list(&self.words))
    }

    /// The specification's list, if the filter is used. The Rust's is the same but for words that reach 2^width, which it
    /// does not look for.
    fn candidates(&self) -> Option<Vec<usize>> {
        let (p, t, width) = (self.p, self.t, self.width);
        let expected = spec::candidates(&self.words, p, t, width);
        let (used, list) = access::candidates(&self.words, p, t, width);
        assert_eq!(used, expected.is_some());
        let below = |slot: &usize| self.words[*slot] <= largest(width);
        let expected_below: Vec<usize> = expected.iter().flatten().copied().filter(below).collect();
        assert_eq!(list, expected_below);
        expected
    }
}

fn numbers(slots: Vec<usize>) -> Vec<u64> {
    slots.into_iter().map(|slot| slot as u64).collect()
}

pub fn lines(file: &mut DataFile) {
    for input in sheet() {
        answered(file, &input);
    }
    let inputs = &mut Inputs::of_kind(CANDIDATES);
    for input in random(inputs) {
        answered(file, &input);
    }
    wrong_orders(file, inputs);
    large_words(file, inputs);
    widths(file, inputs);
    by_steps(file, inputs);
}

/// A line that is not refused.
fn answered(file: &mut DataFile, input: &Input) {
    assert_eq!(input.handed(input.order()).refusal(), NONE);
    match input.candidates() {
        Some(list) => line(file, input, &input.order(), USED, &numbers(list)),
        None => line(file, input, &input.order(), NOT_USED, &[]),
    }
}

/// A line that is refused.
fn refused(file: &mut DataFile, input: &Input, order: Vec<u64>, refusal: u64) {
    let handed = input.handed(order);
    assert_eq!(handed.refusal(), refusal);
    line(file, input, &handed.pairs.order, REFUSED + refusal, &[]);
}

fn line(file: &mut DataFile, input: &Input, order: &[u64], answer: u64, slots: &[u64]) {
    let count = input.words.len();
    assert!(count <= PAIRS_MAX && order.len() == count);
    assert!(7 + 2 * count + slots.len() <= NUMBERS_MAX);
    let head = [input.width.into(), count as u64];
    let rest = [input.p, input.t, answer, slots.len() as u64];
    file.line(CANDIDATES, &[&head, &input.words, order, &rest, slots]);
}

/// P5 to P8. The words stand in another order than that of their size.
fn sheet() -> Vec<Input> {
    let mut all = Vec::new();
    let mut case = |width, words: &[u64], p, t, expected: Option<&[u64]>| {
        let words = mixed(words);
        let input = Input { width, words, p, t };
        let found = input.candidates().map(|list| words_of(&input, &list));
        assert_eq!(found.as_deref(), expected);
        all.push(input);
    };
    let neighbours: Vec<u64> = [0..4, 40..48, 80..92, 124..132, 168..176, 208..220, 252..256]
        .into_iter()
        .flatten()
        .collect();
    case(8, &neighbours, 6, 4, Some(&[86, 214]));
    case(8, &neighbours, 6, 3, Some(&[]));
    case(8, &neighbours, 0, 0, None);
    case(8, &neighbours, 0, 1, Some(&[]));
    let solutions: Vec<u64> = (2..65_536).step_by(256).collect();
    let (ends, middle) = ends_and_middle(&solutions);
    assert_eq!((solutions.len(), solutions[255]), (256, 65_282));
    case(16, &with_neighbours(&ends), 256, 512, Some(&ends));
    case(16, &with_neighbours(&middle), 256, 512, Some(&middle));
    case(16, &with_neighbours(&ends[..40]), 512, 512, None);
    case(16, &with_neighbours(&ends[..40]), 512, 256, Some(&[]));
    let most = u64::MAX;
    let words = [0, 1, 2, most / 2, most / 2 + 1, most - 2, most - 1, most];
    case(64, &words, 1, most, Some(&[most]));
    all
}

/// Every second word, then the others, from the largest down.
fn mixed(words: &[u64]) -> Vec<u64> {
    let second = words.iter().skip(1).step_by(2);
    let others = words.iter().step_by(2);
    second.chain(others.rev()).copied().collect()
}

fn words_of(input: &Input, list: &[usize]) -> Vec<u64> {
    list.iter().map(|&slot| input.words[slot]).collect()
}

/// The first and last quarters, and the rest; a line does not take them all.
fn ends_and_middle(words: &[u64]) -> (Vec<u64>, Vec<u64>) {
    let quarter = words.len() / 4;
    let last = words.len() - quarter;
    let ends = [&words[..quarter], &words[last..]].concat();
    (ends, words[quarter..last].to_vec())
}

/// The words, and some that are one more or one less.
fn with_neighbours(words: &[u64]) -> Vec<u64> {
    let some = words.iter().step_by(13);
    let neighbours: Vec<u64> = some.flat_map(|&word| [word - 1, word + 1]).collect();
    [words, &neighbours].concat()
}

#[derive(Clone, Copy)]
enum Words {
    Random,
    /// Of three values, one of which solves if any word does.
    Few,
    /// Equal words side by side.
    Runs,
    /// Solutions, and words that miss by one, by one bit or by half a step.
    Solving,
    /// Those, with bits from 2^width up.
    Beyond,
}

const WORD_STYLES: [Words; 4] = [Words::Solving, Words::Random, Words::Runs, Words::Few];

fn random(inputs: &mut Inputs) -> Vec<Input> {
    let mut all = every_width(inputs);
    all.extend(trailing_zeros(inputs));
    all.extend(zero_p(inputs));
    all.extend(empty(inputs));
    all.extend(long(inputs));
    all.extend(beyond(inputs));
    all
}

/// At each width an odd p and an even one; t is mostly a product of p.
fn every_width(inputs: &mut Inputs) -> Vec<Input> {
    let mut all = Vec::new();
    for width in 1..=64 {
        let style = WORD_STYLES[width as usize % WORD_STYLES.len()];
        let some = 1 + inputs.below(9) as u32;
        for zeros in [0, some.min(width - 1)] {
            let p = with_zeros(inputs, width, zeros);
            let any = inputs.word_of_width(width);
            let product = spec::product_word(p, any, width);
            let t = inputs.one_of(&[product, product, product, any]);
            all.push(input(inputs, width, style, p, t));
        }
    }
    all
}

/// A word below 2^width with so many trailing zeros.
fn with_zeros(inputs: &mut Inputs, width: u32, zeros: u32) -> u64 {
    (inputs.word_of_width(width - zeros) | 1) << zeros
}

/// So many words that the line is not too long.
fn input(inputs: &mut Inputs, width: u32, style: Words, p: u64, t: u64) -> Input {
    let digits = largest(width).to_string().len();
    let most = BYTES / (digits + 4);
    let count = 1 + most / 4 + inputs.below(most as u64 * 3 / 4) as usize;
    let words = words(inputs, width, count, style, (p, t));
    Input { width, words, p, t }
}

fn words(
    inputs: &mut Inputs,
    width: u32,
    count: usize,
    style: Words,
    (p, t): (u64, u64),
) -> Vec<u64> {
    let solution = a_solution(p, t, width).unwrap_or_else(|| inputs.word_of_width(width));
    let step = (1u128 << (width - p.trailing_zeros().min(width))) as u64;
    let few = [
        solution,
        inputs.word_of_width(width),
        inputs.word_of_width(width),
    ];
    let mut last = solution;
    let mut word = || match style {
        Words::Random => inputs.word_of_width(width),
        Words::Few => inputs.one_of(&few),
        Words::Runs => {
            if inputs.below(5) == 0 {
                last = inputs.word_of_width(width);
            }
            last
        }
        Words::Solving => near(inputs, solution, step) & largest(width),
        Words::Beyond => near(inputs, solution, step) & largest(width) | high_bits(inputs, width),
    };
    (0..count).map(|_| word()).collect()
}

/// The least f with p × f = t modulo 2^width, found bit by bit; p and t are below 2^width.
fn a_solution(p: u64, t: u64, width: u32) -> Option<u64> {
    let zeros = p.trailing_zeros();
    let mut f = 0;
    for bit in 0..width.saturating_sub(zeros) {
        let difference = p.wrapping_mul(f) ^ t;
        if difference >> (zeros + bit) & 1 != 0 {
            f |= 1 << bit;
        }
    }
    (spec::product_word(p, f, width) == t).then_some(f)
}

/// Mostly another solution.
fn near(inputs: &mut Inputs, solution: u64, step: u64) -> u64 {
    let word = solution.wrapping_add(step.wrapping_mul(inputs.word()));
    match inputs.below(8) {
        0 => word.wrapping_add(1),
        1 => word.wrapping_sub(1),
        2 => word ^ 1 << inputs.below(64),
        3 => word.wrapping_add(step / 2),
        _ => word,
    }
}

/// Bits from 2^width up: none, one or some.
fn high_bits(inputs: &mut Inputs, width: u32) -> u64 {
    let one = 1 << (u64::from(width) + inputs.below(u64::from(64 - width)));
    let some = inputs.word() & !largest(width);
    inputs.one_of(&[0, one, one, some])
}

/// Seven trailing zeros, eight, nine, ten or more; the t of each is a product or has fewer zeros than p.
fn trailing_zeros(inputs: &mut Inputs) -> Vec<Input> {
    let mut all = Vec::new();
    for width in [10, 16, 33, 64] {
        for zeros in [7, 8, 9, width - 1] {
            let p = with_zeros(inputs, width, zeros);
            let product = spec::product_word(p, inputs.word(), width);
            let fewer = inputs.below(zeros.into()) as u32;
            for t in [product, with_zeros(inputs, width, fewer)] {
                all.push(input(inputs, width, Words::Solving, p, t));
            }
        }
    }
    all
}

fn zero_p(inputs: &mut Inputs) -> Vec<Input> {
    let mut all = Vec::new();
    for width in [1, 5, 64] {
        for t in [0, 1, largest(width)] {
            all.push(input(inputs, width, Words::Few, 0, t));
        }
    }
    all
}

/// No pairs.
fn empty(inputs: &mut Inputs) -> Vec<Input> {
    let mut all = Vec::new();
    for (width, p, t) in [(1, 1, 1), (8, 6, 4), (8, 0, 0), (64, 512, 512)] {
        let words = words(inputs, width, 0, Words::Random, (p, t));
        all.push(Input { width, words, p, t });
    }
    all
}

/// As many pairs as there may be.
fn long(inputs: &mut Inputs) -> Vec<Input> {
    let mut all = Vec::new();
    for (width, zeros) in [(6, 2), (8, 0), (8, 5), (11, 8)] {
        let p = with_zeros(inputs, width, zeros);
        let t = spec::product_word(p, inputs.word(), width);
        let words = words(inputs, width, PAIRS_MAX, Words::Random, (p, t));
        all.push(Input { width, words, p, t });
    }
    all
}

/// Words that reach 2^width (the difference D1).
fn beyond(inputs: &mut Inputs) -> Vec<Input> {
    let mut all = Vec::new();
    for width in [1, 2, 3, 7, 12, 16, 31, 32, 50, 63] {
        let some = 1 + inputs.below(8) as u32;
        for zeros in [0, some.min(width - 1)] {
            let p = with_zeros(inputs, width, zeros);
            let t = spec::product_word(p, inputs.word(), width);
            all.push(input(inputs, width, Words::Beyond, p, t));
        }
    }
    all
}

/// Two exchanged (any, neighbours, neighbours of one word), one repeated, one at the count or far above.
fn wrong_orders(file: &mut DataFile, inputs: &mut Inputs) {
    for (turn, width) in [3, 8, 8, 20, 64, 64, 5, 8].into_iter().enumerate() {
        let p = with_zeros(inputs, width, turn as u32 % 3);
        let t = spec::product_word(p, inputs.word(), width);
        let input = input(inputs, width, Words::Runs, p, t);
        let count = input.words.len();
        let place = inputs.below(count as u64 - 1) as usize;
        let mut order = input.order();
        match turn {
            0 => order.swap(0, count - 1),
            1 => order.swap(place, place + 1),
            2 => {
                let place = equal_neighbours(&input).expect("words come in runs");
                order.swap(place, place + 1);
            }
            3 => order[place] = order[place + 1],
            4 => order[count - 1] = count as u64,
            5 => order[place] = u32::MAX.into(),
            6 => order.rotate_left(1),
            // as if the pairs were sorted by slot alone
            _ => order.sort_unstable(),
        }
        refused(file, &input, order, REFUSED_ORDER);
    }
    let one = Input {
        width: 8,
        words: vec![86],
        p: 6,
        t: 4,
    };
    refused(file, &one, vec![1], REFUSED_ORDER);
}

/// The first place of the order list whose word is that of the next.
fn equal_neighbours(input: &Input) -> Option<usize> {
    let order = spec::order_list(&input.words);
    let words = words_of(input, &order);
    words.windows(2).position(|two| two[0] == two[1])
}

/// p or t at 2^width or above.
fn large_words(file: &mut DataFile, inputs: &mut Inputs) {
    for (width, large) in [(1, 2), (8, 256), (8, 1 << 32), (32, 1 << 32), (63, 1 << 63)] {
        let p = with_zeros(inputs, width, 0);
        let small = input(inputs, width, Words::Few, p, 1);
        let order = small.order();
        let large_p = Input {
            p: large,
            ..small.clone()
        };
        refused(file, &large_p, order.clone(), REFUSED_WORD);
        let large_t = Input { t: large, ..small };
        refused(file, &large_t, order, REFUSED_WORD);
    }
}

fn widths(file: &mut DataFile, inputs: &mut Inputs) {
    for width in [0, 65] {
        let good = input(inputs, 8, Words::Solving, 6, 4);
        let order = good.order();
        refused(file, &Input { width, ..good }, order, REFUSED_WIDTH);
    }
}

/// Request 2.5: for the least key 0, any and as large as may be.
fn by_steps(file: &mut DataFile, inputs: &mut Inputs) {
    let zeros_of = [(1, 0), (2, 1), (9, 8), (16, 8), (33, 3), (63, 8)];
    for (width, zeros) in zeros_of.into_iter().chain([(64, 0), (64, 1), (64, 8)]) {
        let p = with_zeros(inputs, width, zeros);
        let most = largest(width - zeros);
        let mut leasts = vec![0, inputs.word() & most, most];
        leasts.sort_unstable();
        leasts.dedup();
        for least in leasts {
            answered(file, &stepped(width, zeros, p, least));
        }
    }
}

/// The first and the last keys from `least` on, their neighbours, and what wrong steps come to: 2^zeros after the least, and one step
/// after the last, which is 2^width or more.
fn stepped(width: u32, zeros: u32, p: u64, least: u64) -> Input {
    let step = 1u128 << (width - zeros);
    let value = |number: u128| u64::try_from(u128::from(least) + number * step).ok();
    let count = 1u128 << zeros;
    let near_ends =
        |number: &u128| *number < KEYS_SHOWN || count - KEYS_SHOWN.min(count) <= *number;
    let keys: Vec<u64> = (0..count).filter(near_ends).filter_map(value).collect();
    let beside = keys.iter().step_by(5).flat_map(|key| [key ^ 1, key ^ 2]);
    let wrong = [least.checked_add(1 << zeros), value(count)];
    let words = beside
        .chain(wrong.into_iter().flatten())
        .chain(keys.clone());
    Input {
        width,
        words: mixed(&words.collect::<Vec<u64>>()),
        p,
        t: spec::product_word(p, least, width),
    }
}

#[cfg(test)]
mod tests {
    use super::{a_solution, stepped, Input};
    use crate::made::banks::largest;
    use crate::spec::product::product_word;

    /// The first and the last key are listed, and one step after the last where it is a word.
    #[test]
    fn ends_of_classes() {
        for (width, zeros, last) in [(9, 8, 511), (64, 8, u64::MAX), (64, 0, u64::MAX)] {
            let input = stepped(width, zeros, 1 << zeros, largest(width - zeros));
            let listed = super::words_of(&input, &input.candidates().expect("used"));
            assert_eq!(listed[0], largest(width - zeros));
            assert!(listed.contains(&last));
            assert_eq!(listed.contains(&last.wrapping_add(2)), width < 64);
        }
    }

    /// For all p and t, over words of one bit more: the Rust's list is the specification's but for what reaches 2^width
    /// (`Input::candidates` tells), and there is a solution where `a_solution` says so.
    #[test]
    fn small_widths() {
        for width in 1..=5 {
            let words: Vec<u64> = (0..2 << width).rev().collect();
            for p in 0..=largest(width) {
                for t in 0..=largest(width) {
                    let words = words.clone();
                    Input { width, words, p, t }.candidates();
                    let solves = |f: &u64| product_word(p, *f, width) == t;
                    assert_eq!(a_solution(p, t, width), (0..=largest(width)).find(solves));
                }
            }
        }
    }
}
