//! Counts, by place in the source, which way each condition, clamp and choice went.

use std::cell::RefCell;
use std::collections::HashMap;
use std::panic::Location;

pub const TRUTH: &[&str] = &["false", "true"];
pub const ORDER: &[&str] = &["below", "equal", "above", "NaN"];
pub const PAIR: &[&str] = &["first less", "equal", "two zeros", "first greater", "first NaN", "second NaN"];
pub const CLAMP: &[&str] = &["below", "at low", "within", "at high", "above", "value NaN", "bound NaN"];

thread_local! {
    static COUNTS: RefCell<HashMap<(usize, &'static str), u64>> = RefCell::new(HashMap::new());
}

#[track_caller]
fn note(outcome: &'static str) {
    let place = Location::caller() as *const Location as usize;
    COUNTS.with(|counts| *counts.borrow_mut().entry((place, outcome)).or_insert(0) += 1);
}

#[track_caller]
pub fn truth(condition: bool) -> bool {
    note(TRUTH[condition as usize]);
    condition
}

#[track_caller]
pub fn order(a: f32, b: f32) {
    note(match a.partial_cmp(&b) {
        Some(ordering) => ORDER[(ordering as i8 + 1) as usize],
        None => ORDER[3],
    });
}

#[track_caller]
pub fn less(a: f32, b: f32) -> bool {
    order(a, b);
    a < b
}

#[track_caller]
pub fn greater(a: f32, b: f32) -> bool {
    order(a, b);
    a > b
}

#[track_caller]
pub fn at_most(a: f32, b: f32) -> bool {
    order(a, b);
    a <= b
}

#[track_caller]
pub fn at_least(a: f32, b: f32) -> bool {
    order(a, b);
    a >= b
}

#[track_caller]
pub fn pair(a: f32, b: f32) {
    note(
        PAIR[if a.is_nan() {
            4
        } else if b.is_nan() {
            5
        } else if a < b {
            0
        } else if a > b {
            3
        } else if a.to_bits() != b.to_bits() {
            2
        } else {
            1
        }],
    );
}

#[track_caller]
pub fn clamp(v: f32, low: f32, high: f32) {
    note(
        CLAMP[if v.is_nan() {
            5
        } else if low.is_nan() || high.is_nan() {
            6
        } else if v < low {
            0
        } else if v == low {
            1
        } else if v > high {
            4
        } else if v == high {
            3
        } else {
            2
        }],
    );
}

/// Every place that was reached: (file, line, column, outcome) and how often.
pub fn counts() -> HashMap<(String, u32, u32, &'static str), u64> {
    let mut by_place = HashMap::new();
    COUNTS.with(|counts| {
        for (&(place, outcome), &count) in counts.borrow().iter() {
            // Only `note` puts places in, and a caller's place is never freed.
            let place = unsafe { &*(place as *const Location<'static>) };
            let key = (place.file().to_string(), place.line(), place.column(), outcome);
            *by_place.entry(key).or_insert(0) += count;
        }
    });
    by_place
}
