//! Advice on a timetable.

use crate::bill::score_weights;
use crate::fill::least_placement;
use crate::instance::Instance;
use crate::journal::put_price;
use crate::json::{put_i64, put_u64};
use crate::ledgers::Ledgers;
use crate::moves::{Plan, Stay, Write};
use crate::search::Gate;

fn best_of(l: &Ledgers, subject: usize, weights: &[i64; 17]) -> Option<(i64, Write)> {
    let inst = l.inst;
    let np = inst.patients.len();
    if subject < np {
        let none = Write::Stay(subject as u16, Stay::NONE);
        let none_score = l.price_write(&none).score(weights);
        let limit = none_score.min(0);
        let best = least_placement(l, subject, weights, true, limit).map(|(v, s)| (v, Write::Stay(subject as u16, s)));
        return best.or((none_score < 0).then_some((none_score, none)));
    }
    let (k, r) = ((subject - np) / inst.rooms(), (subject - np) % inst.rooms());
    let care = |n: u16| Write::Care(r as u16, k as u16, n);
    std::iter::once(inst.no_nurse())
        .chain(inst.on_shift[k].iter().copied())
        .map(|n| (l.price_write(&care(n)).score(weights), care(n)))
        .min_by_key(|(v, _)| *v)
        .filter(|(v, _)| *v < 0)
}

/// The text that `advise` puts.
pub fn advise<G: Gate>(inst: &Instance, plan: &Plan, hard: u32, workers: u32, gate: &G) -> Vec<u8> {
    let weights = score_weights(inst, hard);
    let subjects = inst.patients.len() + inst.rooms() * inst.shifts;
    let share = |w: u32| -> Vec<(usize, i64, Write)> {
        let l = Ledgers::new(inst, plan);
        gate.before(w, 0);
        let found = (w as usize..subjects)
            .step_by(workers as usize)
            .filter_map(|s| best_of(&l, s, &weights).map(|(v, write)| (s, v, write)))
            .collect();
        gate.after(w, 0);
        crate::times::hand_ends();
        found
    };
    let mut all: Vec<(usize, i64, Write)> = std::thread::scope(|s| {
        let share = &share;
        let hands: Vec<_> = (0..workers).map(|w| s.spawn(move || share(w))).collect();
        hands.into_iter().flat_map(|h| h.join().unwrap()).collect()
    });
    all.sort_by_key(|a| a.0);
    let l = Ledgers::new(inst, plan);
    let mut out = Vec::new();
    for (_, score, write) in &all {
        put_write(inst, write, &mut out);
        out.push(b' ');
        put_i64(*score, &mut out);
        out.push(b' ');
        put_price(&l.price_write(write), &mut out);
        out.push(b'\n');
    }
    if all.is_empty() {
        out.extend_from_slice(b"locally best\n");
    } else {
        out.extend_from_slice(b"improvable ");
        put_u64(all.len() as u64, &mut out);
        out.push(b'\n');
    }
    out
}

fn put_write(inst: &Instance, w: &Write, out: &mut Vec<u8>) {
    let text = match *w {
        Write::Stay(p, s) if s.admitted() => format!("setstay:{p},{},{},{}", s.day, s.room, s.theatre),
        Write::Stay(p, _) => format!("setstay:{p},none"),
        Write::Care(r, k, n) if n == inst.no_nurse() => format!("setcare:{r},{k},none"),
        Write::Care(r, k, n) => format!("setcare:{r},{k},{n}"),
    };
    out.extend_from_slice(text.as_bytes());
}
