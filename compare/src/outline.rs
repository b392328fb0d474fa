//! The outline's rows, from document 01, "Outline".

use crate::Refusal;
use crate::model::{self, Model};

/// The rows of a packed model: the activity's row and its level.
pub fn outline(bytes: &[u8]) -> Result<Vec<(u32, u32)>, Refusal> {
    model::decode(bytes).map(|m| rows(&m)).map_err(|_| 6)
}

pub fn rows(m: &Model) -> Vec<(u32, u32)> {
    let count = m.activities.len();
    let mut children: Vec<Vec<usize>> = vec![Vec::new(); count];
    let mut top = Vec::new();
    for (row, a) in m.activities.iter().enumerate() {
        match a.parent.map(|p| p as usize).filter(|p| *p < count && *p != row) {
            Some(parent) => children[parent].push(row),
            None => top.push(row),
        }
    }
    // Each activity stands in one list of children or at the top, so that none is met twice.
    let mut waiting: Vec<(usize, u32)> = top.into_iter().rev().map(|row| (row, 1)).collect();
    let mut rows = Vec::new();
    while let Some((row, level)) = waiting.pop() {
        rows.push((row as u32, level));
        waiting.extend(children[row].iter().rev().map(|child| (*child, level + 1)));
    }
    rows
}
