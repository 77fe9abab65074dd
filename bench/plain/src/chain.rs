//! Chains of moves.

use crate::bill::{bill, score_weights};
use crate::book::{Accepted, Answer, Book, Offer};
use crate::footprint::Numbering;
use crate::instance::Instance;
use crate::json::{Out, Pen};
use crate::journal::{Log, Options, Verdict};
use crate::moves::{draw, expand, put_move, Move, Plan};
use crate::rng::Xoshiro;
use crate::search::{Gate, Replica, Run};
use std::sync::Mutex;

/// Up to eight moves.
#[derive(Clone, Copy)]
pub struct Chain {
    moves: [Move; 8],
    len: u8,
}

impl Chain {
    pub fn draw(inst: &Instance, rng: &mut Xoshiro, len: u32) -> Chain {
        let mut c = Chain { moves: [Move::Idle; 8], len: len as u8 };
        for m in &mut c.moves[..len as usize] {
            *m = draw(inst, rng);
        }
        c
    }
    pub fn as_slice(&self) -> &[Move] {
        &self.moves[..self.len as usize]
    }
}

pub fn put_chain(c: &Chain, out: &mut Pen) {
    for (i, m) in c.as_slice().iter().enumerate() {
        if i > 0 {
            out.byte(b';');
        }
        put_move(m, out);
    }
}

pub fn put_head(o: &Options, length: u32, out: &mut Vec<u8>) {
    out.extend_from_slice(
        format!(
            "ihchain 1 seed={} workers={} moves={} heat={} hard={} length={length}\n",
            o.seed, o.workers, o.moves, o.heat, o.hard
        )
        .as_bytes(),
    );
}

impl Replica<'_> {
    /// Makes the chain's moves; its footprint stands in `foot`, each move's part at the
    /// plan where it is made.
    fn play_chain(&mut self, c: &Chain) -> crate::bill::Bill {
        self.foot.clear();
        let mut price = crate::bill::Bill::ZERO;
        for m in c.as_slice() {
            self.foot.add_move(&self.ledgers, m);
            price.add(&self.ledgers.play_noted(m));
        }
        price
    }

    fn advance_chain(&mut self, c: &Chain) {
        for m in c.as_slice() {
            self.ledgers.play(m);
        }
        self.known += 1;
    }

    fn advance_chains_counting(&mut self, chains: &[Accepted<Chain>], cell: u32) -> u32 {
        let mut count = 0;
        for a in chains {
            self.play_chain(&a.mv);
            self.ledgers.keep();
            self.known += 1;
            count += self.foot.has(cell) as u32;
        }
        count
    }
}

pub fn run_chains<G: Gate>(inst: &Instance, start: &Plan, o: &Options, length: u32, gate: &G) -> Run<Chain> {
    let first = bill(inst, start);
    let room = (o.workers * o.moves) as usize;
    let cells = Numbering::of(inst).count();
    let book = Mutex::new(Book::new(cells, &first, &inst.weights, room / 4 + 16));
    let logs = std::thread::scope(|s| {
        let book = &book;
        let hands: Vec<_> =
            (0..o.workers)
                .map(|w| {
                    s.spawn(move || {
                        let log = work(inst, start, o, length, w, book, gate);
                        crate::times::hand_ends();
                        log
                    })
                })
                .collect();
        hands.into_iter().map(|h| h.join().unwrap()).collect()
    });
    let book = book.into_inner().unwrap();
    Run { logs, accepted: book.accepted, best: book.best }
}

fn work<G: Gate>(
    inst: &Instance,
    start: &Plan,
    o: &Options,
    length: u32,
    worker: u32,
    book: &Mutex<Book<Chain>>,
    gate: &G,
) -> Log<Chain> {
    let weights = score_weights(inst, o.hard);
    let mut rng = Xoshiro::seed_from_u64(o.seed.wrapping_add(worker as u64));
    let mut me = Replica::new(inst, start);
    let mut log = Log::new(o.moves as usize);
    let mut news: Vec<Accepted<Chain>> = Vec::new();
    if o.moves == 0 {
        return log;
    }
    let mut seen = {
        let b = book.lock().unwrap();
        news.extend_from_slice(&b.accepted);
        b.len
    };
    news.drain(..).for_each(|a| me.advance_chain(&a.mv));
    for number in 0..o.moves {
        let mv = Chain::draw(inst, &mut rng, length);
        let price = me.play_chain(&mv);
        me.ledgers.roll_back(0);
        gate.before(worker, number);
        let (place, answer, front) = {
            let mut b = book.lock().unwrap();
            let (place, answer) = if price.score(&weights) <= o.theta(number) {
                let (place, answer) =
                    b.commit(&Offer { mv, price: &price, reads: me.foot.cells(), known: me.known });
                (place, Some(answer))
            } else {
                (b.pass(), None)
            };
            news.extend_from_slice(&b.accepted[me.known..]);
            (place, answer, b.len)
        };
        gate.after(worker, number);
        let verdict = match answer {
            None => Verdict::Declined,
            Some(Answer::Accepted) => Verdict::Accepted,
            Some(Answer::Stale(cell, at_place)) => {
                let at_seen = at_place - me.advance_chains_counting(&news, cell);
                news.clear();
                Verdict::Stale { cell, at_seen, at_place }
            }
        };
        log.push(place, 0, seen, mv, &price, verdict);
        seen = front;
        news.drain(..).for_each(|a| me.advance_chain(&a.mv));
    }
    log
}

pub fn plan_at(inst: &Instance, start: &Plan, accepted: &[Accepted<Chain>], place: u32) -> Plan {
    let mut plan = start.clone();
    let mut writes = Vec::new();
    for a in accepted.iter().take_while(|a| a.place < place) {
        for m in a.mv.as_slice() {
            expand(inst, &plan, m, &mut writes);
            for w in &writes {
                plan.put(inst, w);
            }
        }
    }
    plan
}
