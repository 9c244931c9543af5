//! Both sides of every timed call give the same answer, at one variable in each width and at width 1 in each variable count.

use benchmark::{check_setting, Setting, VARIABLE_COUNTS, WIDTHS};

#[test]
fn both_sides_give_the_same_answers() {
    for width in WIDTHS {
        check_setting(&Setting::new(1, width));
    }
    for num_vars in VARIABLE_COUNTS {
        check_setting(&Setting::new(num_vars, 1));
    }
}
