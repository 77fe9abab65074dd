//! Plans, writes, moves, draws and move texts.

use crate::instance::Instance;
use crate::json::{put_u64, Out};
use crate::rng::Xoshiro;

pub const OUT: u16 = u16::MAX;

/// A stay; the day is OUT where the patient isn't admitted.
#[derive(Clone, Copy, PartialEq, Eq, Debug)]
pub struct Stay {
    pub day: u16,
    pub room: u16,
    pub theatre: u16,
}

impl Stay {
    pub const NONE: Stay = Stay { day: OUT, room: OUT, theatre: OUT };
    #[inline(always)]
    pub fn admitted(&self) -> bool {
        self.day != OUT
    }
}

#[derive(Clone, PartialEq, Eq, Debug)]
pub struct Plan {
    pub stay: Vec<Stay>,
    /// By room and shift; `no_nurse` where there is none.
    pub care: Vec<u16>,
}

impl Plan {
    pub fn empty(inst: &Instance) -> Plan {
        Plan {
            stay: vec![Stay::NONE; inst.patients.len()],
            care: vec![inst.no_nurse(); inst.rooms() * inst.shifts],
        }
    }
    pub fn put(&mut self, inst: &Instance, w: &Write) {
        match *w {
            Write::Stay(p, s) => self.stay[p as usize] = s,
            Write::Care(r, k, n) => self.care[r as usize * inst.shifts + k as usize] = n,
        }
    }
}

#[derive(Clone, Copy, PartialEq, Eq, Debug)]
pub enum Write {
    Stay(u16, Stay),
    Care(u16, u16, u16),
}

#[derive(Clone, Copy, PartialEq, Eq, Debug)]
pub enum Move {
    Idle,
    Place(u16, u16, u16, u16),
    Withdraw(u16),
    SetDay(u16, u16),
    SetRoom(u16, u16),
    SetTheatre(u16, u16),
    SwapRooms(u16, u16),
    Nurse(u16, u16, u16),
    NurseRun(u16, u16, u16, u16),
    SwapNurses(u16, u16, u16),
}

/// The next draw of a stream: it takes six words.
#[inline]
pub fn draw(inst: &Instance, rng: &mut Xoshiro) -> Move {
    let u: [u64; 6] = std::array::from_fn(|_| rng.word());
    let by = &inst.divisors;
    let patient = |i: usize| by.patients.of(u[i]);
    let room = |i: usize| by.rooms.of(u[i]);
    let window = |p: u16| {
        let q = &inst.patients[p as usize];
        q.window.of(u[2]).map(|d| d + q.window_first as u16)
    };
    let mv = || -> Option<Move> {
        Some(match u[0] & 15 {
            0..=2 => {
                let p = patient(1)?;
                Move::Place(p, window(p)?, room(3)?, by.theatres.of(u[4])?)
            }
            3 => Move::Withdraw(patient(1)?),
            4 | 5 => {
                let p = patient(1)?;
                Move::SetDay(p, window(p)?)
            }
            6 | 7 => Move::SetRoom(patient(1)?, room(2)?),
            8 => Move::SetTheatre(patient(1)?, by.theatres.of(u[2])?),
            9 => Move::SwapRooms(patient(1)?, patient(2)?),
            10 | 11 => Move::SwapNurses(by.shifts.of(u[1])?, room(2)?, room(3)?),
            12..=14 => {
                let k = by.shifts.of(u[2])?;
                let on = &inst.on_shift[k as usize];
                Move::Nurse(room(1)?, k, on[by.on_shift[k as usize].of(u[3])? as usize])
            }
            _ => Move::NurseRun(by.nurses.of(u[1])?, room(2)?, by.days.of(u[3])?, 1 + (u[4] % 7) as u16),
        })
    };
    mv().unwrap_or(Move::Idle)
}

/// Puts the move's writes at the plan into `out`, replacing what it held.
#[inline]
pub fn expand(inst: &Instance, plan: &Plan, mv: &Move, out: &mut Vec<Write>) {
    out.clear();
    let change = |p: u16, f: &dyn Fn(Stay) -> Stay| {
        let s = plan.stay[p as usize];
        s.admitted().then(|| Write::Stay(p, f(s)))
    };
    match *mv {
        Move::Idle => {}
        Move::Place(p, day, room, theatre) => out.push(Write::Stay(p, Stay { day, room, theatre })),
        Move::Withdraw(p) => out.extend(change(p, &|_| Stay::NONE)),
        Move::SetDay(p, day) => out.extend(change(p, &|s| Stay { day, ..s })),
        Move::SetRoom(p, room) => out.extend(change(p, &|s| Stay { room, ..s })),
        Move::SetTheatre(p, theatre) => out.extend(change(p, &|s| Stay { theatre, ..s })),
        Move::SwapRooms(p, q) => {
            let (a, b) = (plan.stay[p as usize], plan.stay[q as usize]);
            if p != q && a.admitted() && b.admitted() {
                out.push(Write::Stay(p, Stay { room: b.room, ..a }));
                out.push(Write::Stay(q, Stay { room: a.room, ..b }));
            }
        }
        Move::Nurse(r, k, n) => out.push(Write::Care(r, k, n)),
        Move::NurseRun(n, r, d, len) => {
            let end = ((d + len) as usize).min(inst.days);
            for k in 3 * d as usize..3 * end {
                if inst.works(n as usize, k) {
                    out.push(Write::Care(r, k as u16, n));
                }
            }
        }
        Move::SwapNurses(k, a, b) => {
            if a != b {
                let at = |r: u16| plan.care[r as usize * inst.shifts + k as usize];
                out.push(Write::Care(a, k, at(b)));
                out.push(Write::Care(b, k, at(a)));
            }
        }
    }
}

/// Whether a write is frozen.
pub fn frozen(start: &Plan, freeze: usize, w: &Write) -> bool {
    let early = |s: &Stay| s.admitted() && (s.day as usize) < freeze;
    match w {
        Write::Care(_, k, _) => (*k as usize) / 3 < freeze,
        Write::Stay(p, s) => early(&start.stay[*p as usize]) || early(s),
    }
}

pub fn put_move(mv: &Move, out: &mut impl Out) {
    // Names stand in fixed lengths, so that a copy needs no call.
    let (name, len, n, args): (&[u8; 11], usize, usize, [u16; 4]) = match *mv {
        Move::Idle => (b"idle       ", 4, 0, [0; 4]),
        Move::Place(a, b, c, d) => (b"place      ", 5, 4, [a, b, c, d]),
        Move::Withdraw(a) => (b"withdraw   ", 8, 1, [a, 0, 0, 0]),
        Move::SetDay(a, b) => (b"setday     ", 6, 2, [a, b, 0, 0]),
        Move::SetRoom(a, b) => (b"setroom    ", 7, 2, [a, b, 0, 0]),
        Move::SetTheatre(a, b) => (b"settheatre ", 10, 2, [a, b, 0, 0]),
        Move::SwapRooms(a, b) => (b"swaprooms  ", 9, 2, [a, b, 0, 0]),
        Move::Nurse(a, b, c) => (b"nurse      ", 5, 3, [a, b, c, 0]),
        Move::NurseRun(a, b, c, d) => (b"nurserun   ", 8, 4, [a, b, c, d]),
        Move::SwapNurses(a, b, c) => (b"swapnurses ", 10, 3, [a, b, c, 0]),
    };
    out.fixed(name, len);
    for (i, a) in args[..n].iter().enumerate() {
        out.byte(if i == 0 { b':' } else { b',' });
        put_u64(*a as u64, out);
    }
}

/// A decimal number without sign and leading zeros that fits u32.
pub fn parse_u32(b: &[u8]) -> Option<u32> {
    if b.is_empty() || b.len() > 10 || b.len() > 1 && b[0] == b'0' {
        return None;
    }
    let mut n = 0u64;
    for &c in b {
        if !c.is_ascii_digit() {
            return None;
        }
        n = n * 10 + (c - b'0') as u64;
    }
    u32::try_from(n).ok()
}

pub fn parse_move(inst: &Instance, b: &[u8]) -> Option<Move> {
    if b == b"idle" {
        return Some(Move::Idle);
    }
    let colon = b.iter().position(|c| *c == b':')?;
    let mut a = [0u32; 4];
    let mut n = 0;
    for part in b[colon + 1..].split(|c| *c == b',') {
        *a.get_mut(n)? = parse_u32(part)?;
        n += 1;
    }
    let fit = |i: usize, count: usize| ((a[i] as usize) < count).then(|| a[i] as u16);
    let patient = |i| fit(i, inst.patients.len());
    let room = |i| fit(i, inst.rooms());
    let day = |i| fit(i, inst.days);
    let theatre = |i| fit(i, inst.theatres());
    let nurse = |i| fit(i, inst.nurses());
    let shift = |i| fit(i, inst.shifts);
    Some(match (&b[..colon], n) {
        (b"place", 4) => Move::Place(patient(0)?, day(1)?, room(2)?, theatre(3)?),
        (b"withdraw", 1) => Move::Withdraw(patient(0)?),
        (b"setday", 2) => Move::SetDay(patient(0)?, day(1)?),
        (b"setroom", 2) => Move::SetRoom(patient(0)?, room(1)?),
        (b"settheatre", 2) => Move::SetTheatre(patient(0)?, theatre(1)?),
        (b"swaprooms", 2) => Move::SwapRooms(patient(0)?, patient(1)?),
        (b"nurse", 3) => Move::Nurse(room(0)?, shift(1)?, nurse(2)?),
        (b"nurserun", 4) if (1..=7).contains(&a[3]) => Move::NurseRun(nurse(0)?, room(1)?, day(2)?, a[3] as u16),
        (b"swapnurses", 3) => Move::SwapNurses(shift(0)?, room(1)?, room(2)?),
        _ => return None,
    })
}
