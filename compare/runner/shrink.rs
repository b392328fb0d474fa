//! The smallest input that still shows a difference.

use oracle::model::{self, Activity, Calendar, Model};

/// Cuts pieces out of `input`, long ones first, as long as `differs` stays true.
pub fn smallest(input: &[u8], differs: impl Fn(&[u8]) -> bool) -> Vec<u8> {
    let mut best = input.to_vec();
    let mut piece = best.len().max(1);
    while piece > 0 {
        let cut = |from: usize| [&best[..from], &best[(from + piece).min(best.len())..]].concat();
        match (0..best.len()).map(cut).find(|shorter| shorter.len() < best.len() && differs(shorter)) {
            Some(shorter) => best = shorter,
            None => piece /= 2,
        }
    }
    best
}

/// Takes records and fields out of a model that decodes, then bytes, as long as `differs` stays true.
pub fn smallest_model(bytes: &[u8], differs: impl Fn(&[u8]) -> bool) -> Vec<u8> {
    let mut best = bytes.to_vec();
    while let Some(shorter) = model::decode(&best).ok().and_then(|m| simpler(&m).into_iter().map(|m| m.encode()).find(|b| *b != best && differs(b))) {
        best = shorter;
    }
    smallest(&best, differs)
}

/// The model with one record less, or with a plainer one.
fn simpler(m: &Model) -> Vec<Model> {
    let mut all = Vec::new();
    without(m, &mut all, m.expenses.len(), |m, at| drop(m.expenses.remove(at)));
    without(m, &mut all, m.assignments.len(), |m, at| drop(m.assignments.remove(at)));
    without(m, &mut all, m.resources.len(), |m, at| drop(m.resources.remove(at)));
    without(m, &mut all, m.links.len(), |m, at| drop(m.links.remove(at)));
    without(m, &mut all, m.activities.len(), |m, at| drop(m.activities.remove(at)));
    without(m, &mut all, m.calendars.len(), |m, at| drop(m.calendars.remove(at)));
    without(m, &mut all, 1, |m, _| m.project = Default::default());
    without(m, &mut all, m.activities.len(), |m, at| {
        let a = &mut m.activities[at];
        *a = Activity { id: a.id.clone(), parent: a.parent, calendar: a.calendar.clone(), ..Activity::default() };
    });
    without(m, &mut all, m.calendars.len(), |m, at| m.calendars[at] = Calendar { name: m.calendars[at].name.clone(), ..Calendar::default() });
    all
}

fn without(m: &Model, all: &mut Vec<Model>, count: usize, change: impl Fn(&mut Model, usize)) {
    all.extend((0..count).map(|at| {
        let mut other = m.clone();
        change(&mut other, at);
        other
    }));
}
