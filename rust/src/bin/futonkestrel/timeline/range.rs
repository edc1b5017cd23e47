//! Which steps are drawn: `--from` and `--to`, by step or clock.

use std::ffi::OsStr;
use std::ops::Range;

use super::steps::Step;
use crate::Failure;

/// One end of the steps that are drawn.
#[derive(Clone, Copy, Debug, PartialEq, Eq)]
pub enum End {
    Step(i64),
    Clock(i64),
}

impl End {
    /// `41`, `step:41` or `clock:20`, as an option has it.
    pub fn read(option: &str, value: Option<&OsStr>) -> Result<Option<End>, Failure> {
        let Some(value) = value else {
            return Ok(None);
        };
        let text = value.to_string_lossy();
        let (sort, digits) = text.split_once(':').unwrap_or(("step", &text));
        let plain = !digits.is_empty() && digits.bytes().all(|byte| byte.is_ascii_digit());
        let number = digits.parse().ok().filter(|_| plain);
        match (sort, number) {
            ("step", Some(number)) => Ok(Some(End::Step(number))),
            ("clock", Some(number)) => Ok(Some(End::Clock(number))),
            _ => Err(Failure::Usage(format!(
                "timeline: {option} wants a step as 41, or a clock as clock:20, not '{text}'"
            ))),
        }
    }
}

/// The places of the steps from one end to the other; a call for none makes no
/// sense, unless no step was taken at all.
pub fn chosen(steps: &[Step], from: Option<End>, to: Option<End>) -> Result<Range<usize>, Failure> {
    let first = from.map_or(0, |end| {
        steps.partition_point(|step| lies_before(step, end))
    });
    let last = to.map_or(steps.len(), |end| {
        steps.partition_point(|step| !lies_behind(step, end))
    });
    if first < last || (from, to) == (None, None) {
        return Ok(first..last);
    }
    Err(Failure::Usage(format!(
        "timeline: no step lies between --from and --to; the run has {}",
        match steps.last() {
            None => "no steps".to_string(),
            Some(last) => format!(
                "steps 1 to {} and ends at clock {}",
                last.number, last.after
            ),
        }
    )))
}

fn lies_before(step: &Step, end: End) -> bool {
    match end {
        End::Step(number) => (step.number as i64) < number,
        // Ticks that end there lie before it.
        End::Clock(clock) => step.before < clock && step.after <= clock,
    }
}

fn lies_behind(step: &Step, end: End) -> bool {
    match end {
        End::Step(number) => (step.number as i64) > number,
        // Ticks that begin there lie behind it.
        End::Clock(clock) => step.before >= clock && step.after > clock,
    }
}
