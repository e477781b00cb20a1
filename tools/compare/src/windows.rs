//! Windows over noise reports, beside the original's reports counted afresh; those that the caller wrote, beside their digits.
use crate::case::{Case, Run, Tally, fewer, hex};
use crate::inputs::{any, strings, values};
use crate::lent::{MOST_VALUES, Told, Values, told_difference};
use common::choice::Choice;
use common::frames::{damage, noise};
use common::window::{Counts, counts, nearest, ones, report, rows};
use original::mdr::payload::NoiseReport;

#[derive(Clone, Debug)]
enum Op {
    Open(u64),
    Push(Vec<u8>),
    Counts,
    /// The caller hands over another window.
    Written(ours::NoiseWindow),
}

#[derive(Clone)]
struct Session {
    values: usize,
    ops: Vec<Op>,
}

/// What stands before and behind the window that is lent to ours, and in it before the first call.
const AROUND: ours::NoiseWindow =
    ours::NoiseWindow { width: u64::MAX / 3, off: u64::MAX / 5, anc: u64::MAX / 7, ambient: u64::MAX / 9, level: u64::MAX / 11 };

fn window(width: u64, [off, anc, ambient, level]: [u64; 4]) -> ours::NoiseWindow {
    ours::NoiseWindow { width, off, anc, ambient, level }
}

/// Both sides between two calls.
struct State {
    /// The middle one is lent to ours.
    windows: [ours::NoiseWindow; 3],
    width: u64,
    /// The rows that the caller wrote; none from an opening on.
    written: Option<[u64; 4]>,
    /// What has come since.
    reports: Vec<NoiseReport>,
    values: Values,
}

impl State {
    fn new() -> State {
        let mut state = State { windows: [AROUND; 3], width: 0, written: None, reports: vec![], values: Values::new(0) };
        state.set(AROUND);
        state
    }

    fn set(&mut self, window: ours::NoiseWindow) {
        self.windows[1] = window;
        self.width = window.width;
        self.written = Some([window.off, window.anc, window.ambient, window.level]);
        self.reports.clear();
    }

    fn rows(&self) -> [u64; 4] {
        rows(self.written.unwrap_or_default(), &self.reports)
    }

    fn counts(&self) -> Counts {
        match self.written {
            None => counts(self.width, &self.reports),
            Some(_) => ones(self.width, self.rows()),
        }
    }

    /// Compares what a call told, and the window that it left.
    fn compare(&self, told: &Told, status: u8) -> Option<String> {
        told_difference(told, status, &self.values).or_else(|| {
            let [before, ours, behind] = self.windows;
            if [before, behind] != [AROUND; 2] {
                return Some("ours wrote outside of the window".into());
            }
            let expected = window(self.width, self.rows());
            (ours != expected).then(|| format!("expected: {expected:?}\nours:     {ours:?}"))
        })
    }

    fn step(&mut self, op: &Op, values: usize, tally: &mut Tally) -> Option<String> {
        self.values = Values::new(values);
        match op {
            Op::Open(width) => {
                let status = ours::window_open(&mut self.windows[1], *width);
                self.width = nearest(*width);
                self.written = None;
                self.reports.clear();
                tally.add("window_open", 0);
                self.compare(&Told::accepted(&[]), status)
            }
            Op::Push(payload) => {
                let status = ours::window_push(&mut self.windows[1], payload, self.values.lend());
                let told = match report(payload) {
                    Err(number) => Told::refused(number),
                    Ok(report) => {
                        self.reports.push(report);
                        Told::accepted(&self.counts())
                    }
                };
                tally.add("window_push", told.status);
                self.compare(&told, status)
            }
            Op::Counts => {
                let status = ours::window_counts(&self.windows[1], self.values.lend());
                tally.add("window_counts", 0);
                self.compare(&Told::accepted(&self.counts()), status)
            }
            Op::Written(window) => {
                self.set(*window);
                None
            }
        }
    }
}

impl Case for Session {
    fn difference(&self, tally: &mut Tally) -> Option<String> {
        let mut state = State::new();
        self.ops.iter().enumerate().find_map(|(i, op)| {
            let difference = state.step(op, self.values, tally)?;
            Some(format!("step {}, {}\n{difference}", i + 1, shown(op)))
        })
    }

    fn smaller(&self) -> Vec<Session> {
        let mut all = Vec::new();
        let mut n = self.ops.len();
        while n > 0 {
            for at in (0..self.ops.len()).step_by(n) {
                let ops = [&self.ops[..at], &self.ops[self.ops.len().min(at + n)..]].concat();
                all.push(Session { ops, ..*self });
            }
            n /= 2;
        }
        for (at, op) in self.ops.iter().enumerate() {
            let plainer: Vec<Op> = match op {
                Op::Push(payload) => fewer(payload).into_iter().map(Op::Push).collect(),
                Op::Open(width) if *width > 1 => vec![Op::Open(1), Op::Open(width / 2), Op::Open(width - 1)],
                _ => vec![],
            };
            for op in plainer {
                let mut ops = self.ops.clone();
                ops[at] = op;
                all.push(Session { ops, ..*self });
            }
        }
        if self.values != MOST_VALUES {
            all.push(Session { values: MOST_VALUES, ..self.clone() });
        }
        all
    }

    fn shown(&self) -> String {
        let ops: Vec<String> = self.ops.iter().map(shown).collect();
        format!("a window, values {}, {}", self.values, ops.join(", "))
    }
}

fn shown(op: &Op) -> String {
    match op {
        Op::Push(payload) => format!("push [{}]", hex(payload)),
        _ => format!("{op:?}"),
    }
}

/// Off with a level and without, Anc with a level and without, and Ambient.
const KINDS: [&[u8]; 5] = [
    &[0x67, 0x15, 0x01, 0x00, 0x00, 0x00, 0x05],
    &[0x67, 0x01, 0x01, 0x01, 0x00],
    &[0x69, 0x13, 0x01, 0x01, 0x01, 0x00, 0x00],
    &[0x69, 0x01, 0x01, 0x01, 0x01],
    &[0x67, 0x22, 0x01, 0x01, 0x01, 0xFF],
];

/// Within when cut to fewer bits, or below 0 when read with a sign.
const FAR: [u64; 9] = [71, 128, 256, 266, 1 << 32, (1 << 32) + 10, 1 << 63, u64::MAX - 63, u64::MAX];

pub fn exhaustive(run: &mut Run) {
    let mut c = Choice::new(6);
    // Every width, with a list of 200 reports of which each beginning is a list.
    for width in (0..=70).chain(FAR) {
        let mut ops = vec![Op::Open(width), Op::Counts];
        for _ in 0..200 {
            ops.extend([Op::Push(noise(&mut c, 0x67)), Op::Counts]);
        }
        run.case(&Session { values: MOST_VALUES, ops });
    }
    // Every list of up to five reports, and one report over and over.
    for width in 0..=5 {
        for n in 0..=5 {
            for list in strings(&[0, 1, 2, 3, 4], n) {
                let pushes = list.iter().map(|&kind| Op::Push(KINDS[usize::from(kind)].to_vec()));
                let ops = [Op::Open(width)].into_iter().chain(pushes).collect();
                run.case(&Session { values: MOST_VALUES, ops });
            }
        }
    }
    for width in 0..=70 {
        for kind in KINDS {
            let ops = [vec![Op::Open(width)], vec![Op::Push(kind.to_vec()); 66]].concat();
            run.case(&Session { values: MOST_VALUES, ops });
        }
    }
    // A digit at every place of every row, alone and alone missing; at every width.
    for width in (0..=70).chain(FAR) {
        for place in 0..64 {
            for row in 0..4 {
                let mut rows = [0; 4];
                rows[row] = 1 << place;
                for rows in [rows, rows.map(|row| !row)] {
                    let push = Op::Push(KINDS[(place + row) % KINDS.len()].to_vec());
                    run.case(&Session { values: MOST_VALUES, ops: vec![Op::Written(window(width, rows)), Op::Counts, push] });
                }
            }
        }
    }
    // Every kind with every length up to 12, then the counts.
    for kind in 0..=255 {
        for n in 0..=12 {
            let mut payload = c.bytes(n);
            if let Some(place) = payload.get_mut(1) {
                *place = kind;
            }
            let ops = vec![Op::Open(3), Op::Push(KINDS[4].to_vec()), Op::Push(payload), Op::Counts];
            run.case(&Session { values: MOST_VALUES, ops });
        }
    }
    for values in 0..=MOST_VALUES {
        let pushes = KINDS.into_iter().chain([&[0x67][..], &[0x67, 0x15]]).map(|payload| Op::Push(payload.to_vec()));
        let ops = [Op::Open(4), Op::Counts].into_iter().chain(pushes).chain([Op::Counts]).collect();
        run.case(&Session { values, ops });
    }
}

fn width(c: &mut Choice) -> u64 {
    match c.below(20) {
        0 => c.number() >> c.below(64),
        1 => c.of(&FAR),
        2..5 => c.of(&[1, 2, 10, 63, 64]),
        _ => c.below(71) as u64,
    }
}

fn row(c: &mut Choice) -> u64 {
    match c.below(4) {
        0 => c.of(&[0, 1, 1 << 63, u64::MAX]),
        1 => c.number() >> c.below(64),
        _ => c.number(),
    }
}

/// What mdr_noise accepts, a copy with damage, or any bytes.
fn payload(c: &mut Choice) -> Vec<u8> {
    if c.one_in(30) {
        return any(c);
    }
    let command = c.byte();
    let mut payload = noise(c, command);
    if c.one_in(8) {
        damage(c, &mut payload);
    }
    payload
}

/// Runs of the same report and lists of any, with counts between, another window now and then, and a refused payload among the reports.
pub fn random(run: &mut Run, c: &mut Choice) {
    let mut ops = vec![Op::Open(width(c))];
    for _ in 0..c.of(&[1, 2, 3, 5, 8, 20]) {
        match c.below(20) {
            0 => ops.push(Op::Open(width(c))),
            1 => {
                let rows = [(); 4].map(|()| row(c));
                ops.push(Op::Written(window(width(c), rows)));
            }
            2..5 => ops.push(Op::Counts),
            5 => ops.extend(vec![Op::Push(payload(c)); c.of(&[2, 10, 11, 63, 64, 65])]),
            _ => ops.extend((0..c.of(&[1, 1, 2, 4, 9])).map(|_| Op::Push(payload(c)))),
        }
    }
    ops.push(Op::Counts);
    run.case(&Session { values: values(c), ops });
}
