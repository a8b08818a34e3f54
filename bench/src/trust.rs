//! What the error figures of figures that passed promise (request N7), held against the truth.

use crate::reference::{self, Plan, ONE};
use crate::shape;

/// From here on the root's error figure promises nothing of the rule.
pub const HALF: u32 = ONE as u32 / 2;
/// The error figures stop here, and promise nothing from there on.
pub const STOP: u32 = ONE as u32;

/// What was seen of figures that passed and kept the promise.
pub struct Seen {
    /// Whether the rule holds at slot 1 of the rounded run.
    pub met: bool,
    /// Whether some slack is off the truth, as far as its error figure allows.
    pub reached: bool,
    /// The same of a V slack.
    pub second_reached: bool,
}

/// The run made by rounding each atom to the nearer of 0 and 1,000,000.
fn rounded(figures: &[i32], Plan { t, m, .. }: Plan) -> Vec<u16> {
    let bit = |atom: usize, slot: usize| u16::from(i64::from(figures[atom * t + slot]) > ONE / 2) << atom;
    (0..t).map(|slot| (0..m).map(|atom| bit(atom, slot)).sum()).collect()
}

/// Holds figures that passed with tolerance e to the promise.
pub fn check(table: &[u8], plan: Plan, figures: &[i32], e: i32) -> Result<Seen, String> {
    let refused = |number: u32| format!("passed, and refused with {number}");
    let (t, nodes) = (plan.t, shape::len(table));
    let errors = reference::error_figures(table, plan, e).map_err(refused)?;
    let truth = reference::slack_truth(table, plan, &rounded(figures, plan)).map_err(refused)?;
    let root = (nodes - 1) * t;
    let mut seen = Seen { met: truth[root] == 1, reached: false, second_reached: false };
    let slacks = &figures[plan.m * t..];
    if slacks.len() != errors.len() || truth.len() != errors.len() {
        return Err(format!("{} slacks, {} error figures, {} truths", slacks.len(), errors.len(), truth.len()));
    }
    for (place, (figure, (&truth, &error))) in slacks.iter().zip(truth.iter().zip(&errors)).enumerate() {
        let off = figure.abs_diff(i32::from(truth) * ONE as i32);
        if error < STOP && off > error {
            return Err(format!("slacks {}, slot {}: {off} off, error {error}", place / t, place % t + 1));
        }
        let reached = error < STOP && off == error && off > 0;
        seen.reached |= reached;
        seen.second_reached |= reached && place >= nodes * t;
    }
    if errors[root] < HALF && !seen.met {
        return Err(format!("error {}, and the rounded run does not satisfy the rule", errors[root]));
    }
    Ok(seen)
}

/// Holds the error figures that are counted by kind to those that are counted in the rows.
pub fn compare_counts(table: &[u8], plan: Plan, e: i32) -> Result<(), String> {
    let by_kind = reference::error_figures(table, plan, e);
    let by_rows = reference::error_figures_by_rows(table, plan, e);
    if by_kind == by_rows {
        return Ok(());
    }
    Err(format!("error figures: by kind {by_kind:?}, by rows {by_rows:?}"))
}
