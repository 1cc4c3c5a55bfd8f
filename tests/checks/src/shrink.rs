//! A failing case made smaller, so that its stream can be read.

use crate::{compare, stream_in_words};
use streams::Case;

/// Takes requests out as long as the two still differ, and says what is left.
pub fn shrunk(case: &Case) -> String {
    shrunk_by(case, |case| compare(case).map(drop))
}

/// The same for any check that the case fails.
pub fn shrunk_by(case: &Case, check: impl Fn(&Case) -> Result<(), String>) -> String {
    let mut small = case.clone();
    let mut step = (small.requests.len() / 8).next_power_of_two();
    while step > 0 {
        let mut from = 0;
        while from < small.requests.len() {
            let mut fewer = small.clone();
            let to = (from + step * 8).min(fewer.requests.len());
            fewer.requests.drain(from..to);
            if check(&fewer).is_err() {
                small = fewer;
            } else {
                from += step * 8;
            }
        }
        step /= 2;
    }
    let left = small.requests.len() / 8;
    if left > 80 {
        return format!("{left} requests are left after shrinking");
    }
    let why = check(&small).err().unwrap_or_default();
    let stream = stream_in_words(&small.requests);
    format!("the same with {left} requests:\n{stream}{why}")
}
