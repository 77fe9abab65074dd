//! Rounds of searches, each from the best of the one before.

use crate::instance::Instance;
use crate::journal::Options;
use crate::moves::{Move, Plan};
use crate::search::{plan_at, search, Gate, Run, Task};

pub struct Best {
    pub round: u32,
    pub place: u32,
    pub count: usize,
    pub cost: i64,
    pub plan: Plan,
}

pub struct Rounds {
    pub runs: Vec<(Options, Run<Move>)>,
    pub best: Option<Best>,
}

pub fn rounds<G: Gate>(inst: &Instance, start: &Plan, options: &Options, count: u32, gate: &G) -> Rounds {
    let mut plan = start.clone();
    let mut out = Rounds { runs: Vec::new(), best: None };
    for round in 0..count {
        let o = Options { seed: options.seed.wrapping_add(64 * round as u64), ..*options };
        let run = search(&Task { inst, start: &plan, options: &o, freeze: 0 }, gate);
        let place = run.best.map_or(run.entries() as u32, |b| b.0);
        plan = plan_at(inst, &plan, &run.accepted, place);
        if let Some((place, cost)) = run.best {
            if out.best.as_ref().is_none_or(|b| cost < b.cost) {
                out.best = Some(Best { round, place, count: run.entries(), cost, plan: plan.clone() });
            }
        }
        out.runs.push((o, run));
    }
    out
}
