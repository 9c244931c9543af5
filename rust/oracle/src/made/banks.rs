//! Points and targets of several styles, and the banks that they give.

use crate::access::{self, AtomView, Row};
use crate::inputs::Inputs;
use crate::made::formulas::{Lean, Maker};
use crate::spec::bank as spec;
use crate::spec::product::product;

/// What a bank is built from: points of one word for each variable, all words below 2^width.
#[derive(Clone)]
pub struct BankInput {
    pub num_vars: u32,
    pub width: u32,
    pub points: Vec<Vec<u64>>,
    pub target: Row,
}

impl BankInput {
    pub fn new(inputs: &mut Inputs, num_vars: u32, width: u32, styles: (Points, Target)) -> Self {
        let points = points(inputs, num_vars, width, styles.0);
        let target = target(inputs, width, &points, styles.1);
        Self {
            num_vars,
            width,
            points,
            target,
        }
    }

    pub fn of_any_style(inputs: &mut Inputs, num_vars: u32, width: u32) -> Self {
        let points = inputs.one_of(&POINT_STYLES);
        let target = inputs.one_of(&TARGET_STYLES);
        Self::new(inputs, num_vars, width, (points, target))
    }

    /// The input as a line has it.
    pub fn numbers(&self) -> Vec<u64> {
        let mut numbers = vec![self.num_vars.into(), self.width.into()];
        assert_eq!(self.points.len(), 16);
        for point in &self.points {
            assert_eq!(point.len(), self.num_vars as usize);
            numbers.extend(point);
        }
        numbers.extend(self.target);
        let below = |&word: &u64| u128::from(word) < 1 << self.width;
        assert!(numbers[2..].iter().all(below));
        numbers
    }

    /// The Rust's bank, which must be the specification's.
    pub fn bank(&self) -> Vec<AtomView> {
        let atoms = access::bank(self.num_vars, self.width, &self.points, self.target);
        assert_eq!(atoms, self.bank_of_spec());
        assert!(atoms.len() <= spec::ATOMS_MAX);
        assert!(atoms.iter().all(|atom| atom.cost[0] <= 6));
        atoms
    }

    pub fn bank_of_spec(&self) -> Vec<AtomView> {
        spec::bank(self.num_vars, self.width, &self.points, &self.target)
    }
}

#[derive(Clone, Copy)]
pub enum Points {
    /// Any words.
    Random,
    /// Those of `make_probe_points`.
    Probe,
    /// All points equal.
    Equal,
    /// Words 0 and 1.
    ZeroOne,
    /// Words 0 to 3.
    Small,
    /// 0 to 15, for each further variable from one more.
    Ascending,
    /// All points equal but one: the first, the last or any.
    OneApart,
    /// In each point one word for all variables.
    Alike,
}

pub const POINT_STYLES: [Points; 8] = [
    Points::Random,
    Points::Probe,
    Points::Equal,
    Points::ZeroOne,
    Points::Small,
    Points::Ascending,
    Points::OneApart,
    Points::Alike,
];

#[derive(Clone, Copy)]
pub enum Target {
    Zeros,
    /// One word sixteen times.
    Constant,
    /// 2^w - 2, 2^w - 1, 3 or 4 sixteen times.
    Corner,
    Random,
    /// Of the rows of two atoms.
    Product,
    /// The row of a formula.
    Formula,
    /// One to six words that are not zero.
    Few,
    Seven,
    /// Eight to fifteen words that are not zero.
    Many,
    /// Words of two values and zeros.
    Repeats,
    /// One word seven or six times, then others.
    Late,
}

pub const TARGET_STYLES: [Target; 11] = [
    Target::Zeros,
    Target::Constant,
    Target::Corner,
    Target::Random,
    Target::Product,
    Target::Formula,
    Target::Few,
    Target::Seven,
    Target::Many,
    Target::Repeats,
    Target::Late,
];

fn points(inputs: &mut Inputs, num_vars: u32, width: u32, style: Points) -> Vec<Vec<u64>> {
    match style {
        Points::Random => sixteen(|_| point(inputs, num_vars, width)),
        Points::Probe => access::make_probe_points(num_vars, width),
        Points::Equal => vec![point(inputs, num_vars, width); 16],
        Points::ZeroOne => sixteen(|_| point(inputs, num_vars, 1)),
        Points::Small => sixteen(|_| point(inputs, num_vars, width.min(2))),
        Points::Ascending => sixteen(|place| {
            let words = (0..u64::from(num_vars)).map(|variable| place + variable);
            words.map(|word| word & largest(width)).collect()
        }),
        Points::OneApart => {
            let mut points = vec![point(inputs, num_vars, width); 16];
            let any = inputs.below(16) as usize;
            points[inputs.one_of(&[0, 15, any])] = point(inputs, num_vars, width);
            points
        }
        Points::Alike => sixteen(|_| vec![inputs.word_of_width(width); num_vars as usize]),
    }
}

fn sixteen(point: impl FnMut(u64) -> Vec<u64>) -> Vec<Vec<u64>> {
    (0..16).map(point).collect()
}

fn point(inputs: &mut Inputs, num_vars: u32, width: u32) -> Vec<u64> {
    (0..num_vars).map(|_| inputs.word_of_width(width)).collect()
}

fn target(inputs: &mut Inputs, width: u32, points: &[Vec<u64>], style: Target) -> Row {
    match style {
        Target::Zeros => [0; 16],
        Target::Constant => [inputs.word_of_width(width); 16],
        Target::Corner => {
            let word = inputs.one_of(&[u64::MAX - 1, u64::MAX - 1, u64::MAX, 3, 4]);
            [word & largest(width); 16]
        }
        Target::Random => inputs.row(width),
        Target::Product => product_of_atoms(inputs, width, points),
        Target::Formula => formula_row(inputs, width, points),
        Target::Few => {
            let count = 1 + inputs.below(6);
            few_nonzero(inputs, width, count)
        }
        Target::Seven => few_nonzero(inputs, width, 7),
        Target::Many => {
            let count = 8 + inputs.below(8);
            few_nonzero(inputs, width, count)
        }
        Target::Repeats => {
            let words = [0, inputs.word_of_width(width), inputs.word_of_width(width)];
            std::array::from_fn(|_| inputs.one_of(&words))
        }
        Target::Late => late(inputs, width),
    }
}

/// The product of the rows of two atoms that the points alone give.
fn product_of_atoms(inputs: &mut Inputs, width: u32, points: &[Vec<u64>]) -> Row {
    let num_vars = points[0].len() as u32;
    let atoms = spec::bank(num_vars, width, points, &[0; 16]);
    let rows: Vec<Row> = atoms.iter().map(|atom| atom.row).collect();
    let (left, right) = (inputs.one_of(&rows), inputs.one_of(&rows));
    product(&left, &right, width)
}

fn formula_row(inputs: &mut Inputs, width: u32, points: &[Vec<u64>]) -> Row {
    let count = 3 + inputs.below(12) as usize;
    let mut maker = Maker {
        inputs,
        num_vars: points[0].len() as u64,
        width,
    };
    spec::row(&maker.formula(count, Lean::Any), width, points)
}

/// Zeros but for so many words, at any places.
fn few_nonzero(inputs: &mut Inputs, width: u32, count: u64) -> Row {
    let mut row = [0; 16];
    let mut free: Vec<usize> = (0..16).collect();
    for _ in 0..count {
        let place = free.swap_remove(inputs.below(free.len() as u64) as usize);
        row[place] = nonzero(inputs, width);
    }
    row
}

/// Six or seven times one word, then any words that are not zero; here and there a zero.
fn late(inputs: &mut Inputs, width: u32) -> Row {
    let early = nonzero(inputs, width);
    let mut left = inputs.one_of(&[6, 7, 7]);
    std::array::from_fn(|_| {
        if inputs.below(4) == 0 {
            return 0;
        }
        if left > 0 {
            left -= 1;
            return early;
        }
        nonzero(inputs, width)
    })
}

fn nonzero(inputs: &mut Inputs, width: u32) -> u64 {
    inputs.word_of_width(width).max(1)
}

/// 2^width - 1.
pub fn largest(width: u32) -> u64 {
    u64::MAX >> (64 - width)
}
