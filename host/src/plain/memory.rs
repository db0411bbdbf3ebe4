//! The memory: filled at the start, renewed by a visible move.
//!
//! Document 01, "Memory and the history machine": "At start the empty-trace expressions fill them,
//! function by function. A visible move computes all cells anew in that order: now reads new cells,
//! before reads old ones."

use super::decoded::Rules;
use super::evaluation::{value, Cells, UNDEFINED};
use super::moves::Packed;

/// The cells at the start. Before is not evaluated: its code occurs in no empty-trace expression.
pub(super) fn at_start(rules: &Rules) -> Vec<u16> {
    let layout = rules.layout();
    let mut cells = Vec::with_capacity(rules.cells());
    for function in 0..layout.functions {
        let expression = rules.at_start(function);
        for element in 0..layout.elements(function) {
            let reading = Cells { layout, now: &cells, before: &[] };
            let cell = value(expression, [element, UNDEFINED, UNDEFINED], reading);
            cells.push(cell);
        }
    }
    cells
}

/// The cells after a visible move. Now names lower functions only, whose new cells are already in `new`.
pub(super) fn renew(rules: &Rules, action: Packed, old: &[u16], new: &mut Vec<u16>) {
    let layout = rules.layout();
    new.clear();
    for function in 0..layout.functions {
        let expression = rules.at_label(function, action.label());
        for element in 0..layout.elements(function) {
            let reading = Cells { layout, now: new, before: old };
            let cell = value(expression, [element, action.first(), action.second()], reading);
            new.push(cell);
        }
    }
}
