//! The replies of a step and of the leak list as a C caller gets them.

use crate::findings::{Finding, Findings, MOST_FINDINGS};
use crate::limits::Number;
use crate::refusal::Refusal;

/// Numbers to a finding: line, rule, place, thing.
const FINDING: usize = 4;
/// The numbers of the most findings of a line.
pub const MOST_NUMBERS: usize = MOST_FINDINGS * FINDING;
/// The reply where there is no room for them.
pub const SHORT_FOUND: i32 = -100;

/// Minus the refusal's number, or how many leaks were listed.
pub fn list_reply(listed: Result<usize, Refusal>) -> i32 {
    match listed {
        Err(refusal) => -i32::from(refusal),
        Ok(leaks) => leaks as i32,
    }
}

/// Minus the refusal's number, or the count of findings. Their numbers are written at the front of `found`; where that is short for
/// the most findings of a line, the step is not taken.
pub fn reply(step: impl FnOnce() -> Result<Findings, Refusal>, found: &mut [Number]) -> i32 {
    if found.len() < MOST_NUMBERS {
        return SHORT_FOUND;
    }
    match step() {
        Err(refusal) => -i32::from(refusal),
        Ok(findings) => {
            for (finding, written) in findings.iter().zip(found.chunks_exact_mut(FINDING)) {
                let Finding {
                    line,
                    rule,
                    place,
                    thing,
                } = *finding;
                written.copy_from_slice(&[Number::from(line), rule.into(), place.into(), thing]);
            }
            findings.len() as i32
        }
    }
}
