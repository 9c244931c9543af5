//! Lines of kind 12: what the specification's table refuses of the bank build, and close neighbours that it does not. The
//! Rust is not asked. Each case states its refusal by hand, and the table must say the same.

use super::made::largest;
use super::REFUSED;
use crate::answers::data_file::DataFile;
use crate::inputs::Inputs;
use crate::spec::bank::{Handed, ARRAY_LENGTHS};
use crate::spec::refusals::{
    least, NONE, REFUSED_LENGTH, REFUSED_VARS, REFUSED_WIDTH, REFUSED_WORD,
};

const BAD_VARS: [u64; 4] = [0, 7, 8, u32::MAX as u64];
const BAD_WIDTHS: [u64; 5] = [0, 65, 66, 128, u32::MAX as u64];
/// Widths with the least word that is too large.
const TOO_LARGE: [(u32, u64); 4] = [(1, 2), (8, 256), (32, 1 << 32), (63, 1 << 63)];
const ARRAY_MAX: u64 = 8000;

pub fn lines(file: &mut DataFile) {
    let mut lines = Lines {
        file,
        inputs: Inputs::of_kind(REFUSED),
    };
    lines.good();
    lines.variable_counts();
    lines.widths();
    lines.array_lengths();
    lines.point_words();
    lines.words_past_the_variables();
    lines.target_words();
    lines.two_conditions();
    lines.three_conditions();
}

struct Lines<'a> {
    file: &'a mut DataFile,
    inputs: Inputs,
}

impl Lines<'_> {
    fn case(&mut self, handed: &Handed, refusal: u64) {
        assert_eq!(handed.refusal(), refusal);
        assert!(handed
            .array_lengths
            .iter()
            .all(|&length| length <= ARRAY_MAX));
        let head = [handed.num_vars, handed.width];
        let points = handed.points.as_flattened();
        let (target, lengths) = (&handed.target, &handed.array_lengths);
        self.file
            .line(REFUSED, &[&head, points, target, lengths, &[refusal]]);
    }

    /// Nothing to refuse: words below 2^width, zeros past the variables, exact arrays.
    fn hand(&mut self, num_vars: usize, width: u32) -> Handed {
        let mut points = [[0; 6]; 16];
        for point in &mut points {
            for word in &mut point[..num_vars] {
                *word = self.inputs.word_of_width(width);
            }
        }
        Handed {
            num_vars: num_vars as u64,
            width: width.into(),
            points,
            target: self.inputs.row(width),
            array_lengths: ARRAY_LENGTHS,
        }
    }

    /// The ends of each range; the largest words.
    fn good(&mut self) {
        for num_vars in 1..=6 {
            let handed = self.hand(num_vars, 3);
            self.case(&handed, NONE);
        }
        for width in [1, 2, 63, 64] {
            let mut handed = self.hand(1, width);
            handed.points = [[largest(width), 0, 0, 0, 0, 0]; 16];
            handed.target = [largest(width); 16];
            self.case(&handed, NONE);
        }
    }

    fn variable_counts(&mut self) {
        for num_vars in BAD_VARS {
            let mut handed = self.hand(6, 2);
            handed.num_vars = num_vars;
            self.case(&handed, REFUSED_VARS);
        }
    }

    fn widths(&mut self) {
        for width in BAD_WIDTHS {
            let mut handed = self.hand(2, 1);
            handed.width = width;
            self.case(&handed, REFUSED_WIDTH);
        }
        // with width 0 no word but 0 would be below 2^width
        let mut handed = self.hand(2, 1);
        (handed.points, handed.target) = ([[0; 6]; 16], [0; 16]);
        handed.width = 0;
        self.case(&handed, REFUSED_WIDTH);
    }

    /// Each array one short, empty and one longer; all longer, all empty.
    fn array_lengths(&mut self) {
        for (array, needed) in ARRAY_LENGTHS.into_iter().enumerate() {
            let short = [(needed - 1, REFUSED_LENGTH), (0, REFUSED_LENGTH)];
            for (length, refusal) in short.into_iter().chain([(needed + 1, NONE)]) {
                let mut handed = self.hand(1, 2);
                handed.array_lengths[array] = length;
                self.case(&handed, refusal);
            }
        }
        for (lengths, refusal) in [([ARRAY_MAX; 6], NONE), ([0; 6], REFUSED_LENGTH)] {
            let mut handed = self.hand(2, 2);
            handed.array_lengths = lengths;
            self.case(&handed, refusal);
        }
    }

    /// The first word of the first point, the last that counts of the last point, one between.
    fn point_words(&mut self) {
        for (width, word) in TOO_LARGE {
            for (num_vars, point, variable) in [(1, 0, 0), (2, 15, 1), (3, 7, 1)] {
                let mut handed = self.hand(num_vars, width);
                handed.points[point][variable] = word;
                self.case(&handed, REFUSED_WORD);
            }
            let mut handed = self.hand(2, width);
            handed.points[15][1] = word - 1;
            self.case(&handed, NONE);
        }
        let mut handed = self.hand(6, 2);
        handed.points[15][5] = u64::MAX;
        self.case(&handed, REFUSED_WORD);
    }

    /// Places past the variables may hold anything.
    fn words_past_the_variables(&mut self) {
        for (num_vars, width) in [(1, 1), (2, 8), (5, 3)] {
            let mut handed = self.hand(num_vars, width);
            handed.points[0][num_vars] = largest(width) + 1;
            self.case(&handed, NONE);
            for point in &mut handed.points {
                point[num_vars..].fill(u64::MAX);
            }
            self.case(&handed, NONE);
        }
    }

    /// The sheet's 256 and 255 at width 8 among them.
    fn target_words(&mut self) {
        for ((width, word), place) in TOO_LARGE.into_iter().zip([15, 0, 7, 1]) {
            let mut handed = self.hand(1, width);
            handed.target[place] = word;
            self.case(&handed, REFUSED_WORD);
            handed.target[place] = word - 1;
            self.case(&handed, NONE);
        }
        for place in [7, 8, 15] {
            let mut handed = self.hand(1, 8);
            handed.target[place] = 256;
            self.case(&handed, REFUSED_WORD);
        }
    }

    /// Each two of: variable count, width, array length, point word, target word. The least number counts.
    fn two_conditions(&mut self) {
        for (first, one) in FAULTS.iter().enumerate() {
            for other in &FAULTS[first + 1..] {
                let mut handed = self.hand(2, 2);
                (one.make)(&mut handed);
                (other.make)(&mut handed);
                self.case(&handed, least(one.refusal, other.refusal));
            }
        }
    }

    /// All faults, all but one, all but two.
    fn three_conditions(&mut self) {
        for kept in 0..=2 {
            let mut handed = self.hand(2, 2);
            for fault in &FAULTS[kept..] {
                (fault.make)(&mut handed);
            }
            let refusals = FAULTS[kept..].iter().map(|fault| fault.refusal);
            self.case(&handed, refusals.fold(NONE, least));
        }
    }
}

/// Something wrong, and what it alone is refused with.
struct Fault {
    make: fn(&mut Handed),
    refusal: u64,
}

const FAULTS: [Fault; 5] = [
    Fault {
        make: |handed| handed.num_vars = 7,
        refusal: REFUSED_VARS,
    },
    Fault {
        make: |handed| handed.width = 65,
        refusal: REFUSED_WIDTH,
    },
    Fault {
        make: |handed| handed.array_lengths[4] -= 1,
        refusal: REFUSED_LENGTH,
    },
    Fault {
        make: |handed| handed.points[3][1] = 4,
        refusal: REFUSED_WORD,
    },
    Fault {
        make: |handed| handed.target[9] = 4,
        refusal: REFUSED_WORD,
    },
];
