//! Sessions of a scanner beside the Rust's `Scanner`, their line calls beside the log over its `unpack` and decoders, and their station calls
//! beside its `ack_frame`.
use crate::case::{Case, Run, Tally, fewer, fewer_in_frame, hex};
use crate::inputs::{any, any_levels, content, room, setting_texts, strings, values};
use crate::lent::{Left, Lent, MOST_VALUES, Told, Values, left_difference, told_difference};
use crate::ranges::is_plan;
use common::choice::Choice;
use common::frames::{END, HOUSE, MARKS, SENTRY, START, accepted, damage, every_level, framed, house_plan, name, paired};
use common::log::Log;
use original::mdr::frame_any::{LIMIT, Scanner};

/// What is wrong with the plan of a line call.
#[derive(Clone, Copy, Debug, PartialEq)]
enum Fault {
    None,
    Short,
    Long,
    Entry { at: usize, entry: u8 },
}

#[derive(Clone, Debug)]
enum Op {
    Push(Vec<u8>),
    Find,
    Take,
    /// Find and take, until there is no span.
    TakeAll,
    /// The work area's length less the store's; the output's length less the line's, or so many bytes where there is no line.
    Line {
        work: isize,
        out: isize,
        fault: Fault,
    },
    /// Line calls until there is no span or one is refused.
    LineAll,
    /// The same by one call, with an output of so many bytes.
    AllLines {
        work: isize,
        room: usize,
        fault: Fault,
    },
    /// The acks of all spans. The work area's length less the store's; the output's length less that of the acks.
    Acks {
        work: isize,
        out: isize,
    },
    /// The first held bytes go, so many of them counted as dropped and so many as handed over.
    Skip {
        dropped: usize,
        handed: usize,
    },
    /// The caller hands over another state.
    State(ours::Scanner),
    /// The caller hands over other counts.
    Counts(Counts),
    /// The caller writes to the store.
    Store {
        at: usize,
        bytes: Vec<u8>,
    },
}

/// Bytes pushed, handed over and dropped.
type Counts = [u64; 3];

/// A count with so much room.
fn below_greatest(room: usize) -> u64 {
    u64::MAX - room as u64
}

#[derive(Clone)]
pub struct Session {
    limit: usize,
    store: usize,
    plan: Vec<u8>,
    values: usize,
    ops: Vec<Op>,
}

/// What stands before and behind the state that is lent to ours.
const AROUND: ours::Scanner = ours::Scanner {
    limit: usize::MAX / 3,
    count: usize::MAX / 5,
    pushed: u64::MAX / 7,
    handed: u64::MAX / 9,
    dropped: u64::MAX / 11,
};

/// 27 where so many bytes more are more than a count can be.
fn passed(count: u64, bytes: usize) -> Option<u8> {
    (u128::from(count) + bytes as u128 > u128::from(u64::MAX)).then_some(27)
}

/// What a take comes to: the span and its length, and how many other bytes go, which stand before the span where there is one.
struct Next {
    span: Option<Vec<u8>>,
    handed: usize,
    dropped: usize,
}

/// What takes come to until one finds no span: the acks of their spans, the Rust's side then, and how many bytes go.
struct Takes {
    acks: Vec<u8>,
    scanner: Scanner,
    handed: usize,
    dropped: usize,
}

/// Both sides between two calls.
struct State<'a> {
    session: &'a Session,
    tally: &'a mut Tally,
    /// What the state should be.
    now: ours::Scanner,
    /// The middle one is lent to ours.
    states: [ours::Scanner; 3],
    /// Whether the counts are those of the calls since the opening.
    lawful: bool,
    /// Lent to ours.
    store: Lent,
    /// What it should hold.
    expected: Vec<u8>,
    /// The Rust's side; its bytes are the first `count` of the store.
    scanner: Scanner,
}

impl State<'_> {
    /// Refusals 1 to 3, the lowest first.
    fn refusal(&self) -> Option<u8> {
        if self.now.limit < 9 || self.now.limit > 65_536 {
            Some(1)
        } else if self.expected.len() < self.now.limit + 1 {
            Some(2)
        } else if self.expected.len() < self.now.count {
            Some(3)
        } else {
            None
        }
    }

    /// Compares what a call told, and the state and the store that it left.
    fn compare(&self, told: &Told, status: u8, values: &Values) -> Option<String> {
        told_difference(told, status, values)
            .or_else(|| self.state_difference())
            .or_else(|| left_difference("store", &self.expected, &self.store))
    }

    fn state_difference(&self) -> Option<String> {
        let [before, ours, behind] = self.states;
        if [before, behind] != [AROUND; 2] {
            return Some("ours wrote outside of the state".into());
        }
        if self.lawful {
            assert_eq!(self.now.pushed, self.now.handed + self.now.dropped + self.now.count as u64);
        }
        (ours != self.now).then(|| format!("expected: {:?}\nours:     {ours:?}", self.now))
    }

    /// What the Rust's `next_raw` would do.
    fn next(&self) -> Next {
        let held = &self.scanner.buf;
        let mut copy = Scanner::new();
        copy.push(held);
        LIMIT.set(self.now.limit);
        let span = copy.next_raw();
        let handed = span.as_ref().map_or(0, Vec::len);
        let dropped = common::counts::dropped(held, span.as_deref(), &copy.buf);
        Next { span, handed, dropped }
    }

    /// What the Rust's `next_raw` would do, again and again.
    fn takes(&self) -> Takes {
        let mut scanner = Scanner::new();
        scanner.push(&self.scanner.buf);
        LIMIT.set(self.now.limit);
        let (mut spans, mut handed, mut dropped) = (vec![], 0, 0);
        loop {
            let before = scanner.buf.clone();
            let span = scanner.next_raw();
            dropped += common::counts::dropped(&before, span.as_deref(), &scanner.buf);
            let Some(span) = span else { break };
            handed += span.len();
            spans.push(span);
        }
        let acks = common::acks::of_spans(&spans);
        assert!(acks.len() <= self.scanner.buf.len() / 9 * 11);
        Takes { acks, scanner, handed, dropped }
    }

    /// What the store holds once bytes have gone: what stays, at the front, and zeros. They are counted.
    fn gone(&mut self, dropped: usize, handed: usize) {
        self.now.dropped += dropped as u64;
        self.now.handed += handed as u64;
        self.now.count = self.scanner.buf.len();
        self.expected.fill(0);
        self.expected[..self.now.count].copy_from_slice(&self.scanner.buf);
    }

    /// The Rust's `next_raw`.
    fn next_raw(&mut self) {
        let next = self.next();
        LIMIT.set(self.now.limit);
        assert_eq!(self.scanner.next_raw(), next.span);
        self.gone(next.dropped, next.handed);
    }

    /// Refusal 27: bytes that go pass a count.
    fn too_many(&self, dropped: usize, handed: usize) -> Option<u8> {
        passed(self.now.dropped, dropped).or_else(|| passed(self.now.handed, handed))
    }

    /// The state is this limit with nothing held and nothing counted, also where the opening is refused.
    fn open(&mut self) -> Option<String> {
        let status = ours::open(&mut self.states[1], self.now.limit, self.store.lend());
        let told = match self.refusal() {
            Some(r) => Told::refused(r),
            None => {
                self.expected.fill(0);
                Told::accepted(&[])
            }
        };
        self.tally.add("open", told.status);
        self.compare(&told, status, &Values::new(0))
    }

    fn push(&mut self, piece: &[u8]) -> Option<String> {
        let status = ours::push(&mut self.states[1], self.store.lend(), piece);
        let at = self.now.count;
        let full = || (self.expected.len() - at < piece.len()).then_some(4);
        let told = match self.refusal().or_else(full).or_else(|| passed(self.now.pushed, piece.len())) {
            Some(r) => Told::refused(r),
            None => {
                self.scanner.push(piece);
                self.expected[at..at + piece.len()].copy_from_slice(piece);
                self.now.count = self.scanner.buffered();
                self.now.pushed += piece.len() as u64;
                Told::accepted(&[])
            }
        };
        self.tally.add("push", told.status);
        self.compare(&told, status, &Values::new(0))
    }

    /// Whether there is a span, or the difference.
    fn find(&mut self) -> Result<bool, String> {
        let mut values = Values::new(self.session.values);
        let status = ours::find(&self.states[1], self.store.lend(), values.lend());
        let (told, outcome) = match self.refusal() {
            Some(r) => (Told::refused(r), r),
            None => match self.next() {
                Next { span: Some(_), handed, dropped } => (Told::accepted(&[1, dropped as u64, handed as u64]), 0),
                _ => (Told::accepted(&[0]), b'N'),
            },
        };
        self.tally.add("find", outcome);
        self.compare(&told, status, &values).or_else(|| self.seek()).map_or(Ok(outcome == 0), Err)
    }

    /// The same search among the held bytes alone.
    fn seek(&mut self) -> Option<String> {
        let held = self.store.held().get(..self.now.count)?.to_vec();
        let mut values = Values::new(self.session.values);
        let status = ours::seek(&held, values.lend());
        let told = match (self.next(), held.iter().position(|&b| b == START)) {
            (Next { span: Some(_), handed, dropped }, _) => Told::accepted(&[2, dropped as u64, handed as u64]),
            (_, Some(at)) => Told::accepted(&[1, at as u64]),
            (_, None) => Told::accepted(&[0]),
        };
        self.tally.add("seek", if told.numbers[0] == 2 { 0 } else { b'N' });
        told_difference(&told, status, &values)
    }

    /// As many held bytes go, those that are dropped first, and the rest is left as by a take.
    fn skip(&mut self, dropped: usize, handed: usize) -> Option<String> {
        let status = ours::skip(&mut self.states[1], self.store.lend(), dropped, handed);
        let held = self.scanner.buf.len();
        let dropped = dropped.min(held);
        let handed = handed.min(held - dropped);
        let told = match self.refusal().or_else(|| self.too_many(dropped, handed)) {
            Some(r) => Told::refused(r),
            None => {
                self.scanner.buf.drain(..dropped + handed);
                self.gone(dropped, handed);
                Told::accepted(&[])
            }
        };
        self.tally.add("skip", told.status);
        self.compare(&told, status, &Values::new(0))
    }

    /// Whether a span went, or the difference.
    fn take(&mut self) -> Result<bool, String> {
        let mut values = Values::new(self.session.values);
        let status = ours::take(&mut self.states[1], self.store.lend(), values.lend());
        let next = self.next();
        let (told, outcome) = match self.refusal().or_else(|| self.too_many(next.dropped, next.handed)) {
            Some(r) => (Told::refused(r), r),
            None => {
                self.next_raw();
                if next.span.is_some() { (Told::accepted(&[1]), 0) } else { (Told::accepted(&[0]), b'N') }
            }
        };
        self.tally.add("take", outcome);
        self.compare(&told, status, &values).map_or(Ok(outcome == 0), Err)
    }

    fn take_all(&mut self) -> Option<String> {
        loop {
            match self.find().and_then(|_| self.take()) {
                Ok(true) => {}
                Ok(false) => return None,
                Err(difference) => return Some(difference),
            }
        }
    }

    fn plan(&self, fault: Fault) -> Vec<u8> {
        let mut plan = self.session.plan.clone();
        match fault {
            Fault::None => {}
            Fault::Short => plan.truncate(511),
            Fault::Long => plan.push(0),
            Fault::Entry { at, entry } => plan[at] = entry,
        }
        plan
    }

    /// Lines one behind the other, until no span is left or one is refused.
    fn all_lines(&mut self, work: isize, room: usize, fault: Fault) -> Option<String> {
        let plan = self.plan(fault);
        let mut work = Lent::new(self.expected.len().saturating_add_signed(work));
        let mut out = Lent::new(room);
        let mut values = Values::new(self.session.values);
        let status = ours::all_lines(&mut self.states[1], self.store.lend(), &plan, work.lend(), out.lend(), values.lend());

        let early = || if is_plan(&plan) { (work.held().len() < self.expected.len()).then_some(6) } else { Some(5) };
        let (last, work_left, lines) = if let Some(r) = self.refusal().or_else(early) {
            (r, Left::Untouched, vec![])
        } else {
            let mut lines = Vec::new();
            let last = loop {
                let next = self.next();
                if let Some(r) = self.too_many(next.dropped, next.handed) {
                    break r;
                }
                let mut line = Vec::new();
                if let Some(span) = &next.span {
                    Log::default().line(&plan, span, &mut line);
                }
                if room - lines.len() < line.len() {
                    break 7;
                }
                self.next_raw();
                if line.is_empty() {
                    break 0;
                }
                lines.extend(line);
            };
            // A line call that is refused by 27 leaves what it is lent.
            let untouched = last == 27 && lines.is_empty();
            (last, if untouched { Left::Untouched } else { Left::Zero }, lines)
        };
        let told = Told { status: last, numbers: vec![lines.len() as u64] };
        self.tally.add("all_lines", last);
        self.compare(&told, status, &values)
            .or_else(|| left_difference("work area", &work_left.whole(&work), &work))
            .or_else(|| left_difference("output", &Left::Front(lines).whole(&out), &out))
    }

    /// Whether a line was written, or the difference.
    fn line(&mut self, work: isize, out: isize, fault: Fault) -> Result<bool, String> {
        let plan = self.plan(fault);
        let mut line = Vec::new();
        let refusal = self.refusal();
        let next = self.next();
        if refusal.is_none()
            && is_plan(&plan)
            && let Some(span) = &next.span
        {
            Log::default().line(&plan, span, &mut line);
        }
        let mut work = Lent::new(self.expected.len().saturating_add_signed(work));
        let mut out = Lent::new(line.len().saturating_add_signed(out));
        let mut values = Values::new(self.session.values);
        let status = ours::line(&mut self.states[1], self.store.lend(), &plan, work.lend(), out.lend(), values.lend());

        let early = || if is_plan(&plan) { (work.held().len() < self.expected.len()).then_some(6) } else { Some(5) };
        let full = || self.too_many(next.dropped, next.handed);
        let (told, outcome, work_left, out_left) = if let Some(r) = refusal.or_else(early).or_else(full) {
            (Told::refused(r), r, Left::Untouched, Left::Untouched)
        } else if out.held().len() < line.len() {
            (Told::refused(7), 7, Left::Zero, Left::Untouched)
        } else {
            self.next_raw();
            assert_eq!(next.span.is_some(), !line.is_empty());
            let letter = line.first().map_or(b'N', |&letter| letter);
            (Told::accepted(&[line.len() as u64]), letter, Left::Zero, Left::Front(line))
        };
        self.tally.add("line", outcome);
        let written = told.numbers.first().is_some_and(|&n| n > 0);
        self.compare(&told, status, &values)
            .or_else(|| left_difference("work area", &work_left.whole(&work), &work))
            .or_else(|| left_difference("output", &out_left.whole(&out), &out))
            .map_or(Ok(written), Err)
    }

    fn line_all(&mut self) -> Option<String> {
        loop {
            match self.line(0, 3, Fault::None) {
                Ok(true) => {}
                Ok(false) => return None,
                Err(difference) => return Some(difference),
            }
        }
    }

    /// The acks of all spans, which go, or nothing.
    fn acknowledge(&mut self, work: isize, out: isize) -> Option<String> {
        let Takes { acks, scanner, handed, dropped } = self.takes();
        let mut work = Lent::new(self.expected.len().saturating_add_signed(work));
        let mut out = Lent::new(acks.len().saturating_add_signed(out));
        let mut values = Values::new(self.session.values);
        let status = ours::acknowledge(&mut self.states[1], self.store.lend(), work.lend(), out.lend(), values.lend());

        let early = || (work.held().len() < self.expected.len()).then_some(6);
        let (told, outcome, work_left, out_left) = if let Some(r) = self.refusal().or_else(early) {
            (Told::refused(r), r, Left::Untouched, Left::Untouched)
        } else if out.held().len() < acks.len() {
            (Told::refused(18), 18, Left::Zero, Left::Untouched)
        } else if let Some(r) = self.too_many(dropped, handed) {
            (Told::refused(r), r, Left::Untouched, Left::Untouched)
        } else {
            self.scanner = scanner;
            self.gone(dropped, handed);
            let outcome = if acks.is_empty() { b'N' } else { 0 };
            (Told::accepted(&[acks.len() as u64]), outcome, Left::Zero, Left::Front(acks))
        };
        self.tally.add("acknowledge", outcome);
        self.compare(&told, status, &values)
            .or_else(|| left_difference("work area", &work_left.whole(&work), &work))
            .or_else(|| left_difference("output", &out_left.whole(&out), &out))
    }

    fn set(&mut self, state: ours::Scanner) {
        self.now = state;
        self.states[1] = state;
        self.scanner = Scanner::new();
        self.scanner.push(self.expected.get(..state.count).unwrap_or(&[]));
    }

    fn step(&mut self, op: &Op) -> Option<String> {
        match op {
            Op::Push(piece) => self.push(piece),
            Op::Find => self.find().err(),
            Op::Take => self.take().err(),
            Op::TakeAll => self.take_all(),
            Op::Line { work, out, fault } => self.line(*work, *out, *fault).err(),
            Op::LineAll => self.line_all(),
            Op::AllLines { work, room, fault } => self.all_lines(*work, *room, *fault),
            Op::Acks { work, out } => self.acknowledge(*work, *out),
            Op::Skip { dropped, handed } => self.skip(*dropped, *handed),
            Op::State(state) => {
                self.set(*state);
                self.lawful = false;
                None
            }
            Op::Counts([pushed, handed, dropped]) => {
                self.set(ours::Scanner { pushed: *pushed, handed: *handed, dropped: *dropped, ..self.now });
                self.lawful = false;
                None
            }
            Op::Store { at, bytes } => {
                let at = (*at).min(self.expected.len());
                let n = bytes.len().min(self.expected.len() - at);
                self.expected[at..at + n].copy_from_slice(&bytes[..n]);
                self.store.lend()[at..at + n].copy_from_slice(&bytes[..n]);
                self.set(self.now);
                None
            }
        }
    }
}

impl Case for Session {
    fn difference(&self, tally: &mut Tally) -> Option<String> {
        let store = Lent::new(self.store);
        let expected = store.filled();
        let mut state = State {
            session: self,
            tally,
            now: ours::Scanner { limit: self.limit, ..Default::default() },
            states: [AROUND; 3],
            lawful: true,
            store,
            expected,
            scanner: Scanner::new(),
        };
        if let Some(difference) = state.open() {
            return Some(format!("in the opening\n{difference}"));
        }
        for (i, op) in self.ops.iter().enumerate() {
            if let Some(difference) = state.step(op) {
                return Some(format!("in step {} of the session\n{difference}", i + 1));
            }
        }
        None
    }

    fn smaller(&self) -> Vec<Session> {
        let mut all = Vec::new();
        let mut n = self.ops.len();
        while n > 0 {
            for at in (0..self.ops.len()).step_by(n) {
                let mut ops = self.ops.clone();
                ops.drain(at..ops.len().min(at + n));
                all.push(Session { ops, ..self.clone() });
            }
            n /= 2;
        }
        for (i, op) in self.ops.iter().enumerate() {
            let pieces = match op {
                Op::Push(bytes) => fewer_in_frame(bytes).into_iter().map(Op::Push).collect(),
                Op::Store { at, bytes } => fewer(bytes).into_iter().map(|bytes| Op::Store { at: *at, bytes }).collect(),
                _ => vec![],
            };
            for piece in pieces {
                let mut ops = self.ops.clone();
                ops[i] = piece;
                all.push(Session { ops, ..self.clone() });
            }
        }
        if self.limit > 9 && self.store > 10 {
            all.push(Session { limit: self.limit - 1, store: self.store - 1, ..self.clone() });
        }
        if self.store > self.limit.saturating_add(1) {
            all.push(Session { store: self.store - 1, ..self.clone() });
        }
        if self.plan != house_plan() {
            all.push(Session { plan: house_plan(), ..self.clone() });
        }
        if self.values != MOST_VALUES {
            all.push(Session { values: MOST_VALUES, ..self.clone() });
        }
        all
    }

    fn shown(&self) -> String {
        let mut out = format!("a session: limit {}, store of {} bytes, values {}", self.limit, self.store, self.values);
        if self.plan != house_plan() {
            out += &format!("\n  plan [{}]", hex(&self.plan));
        }
        for op in &self.ops {
            out += "\n  ";
            out += &match op {
                Op::Push(piece) => format!("push {} bytes [{}]", piece.len(), hex(piece)),
                Op::Store { at, bytes } => format!("the store becomes [{}] from {at} on", hex(bytes)),
                op => format!("{op:?}"),
            };
        }
        out
    }
}

impl Session {
    fn of(limit: usize, store: usize, ops: Vec<Op>) -> Session {
        Session { limit, store, plan: house_plan(), values: MOST_VALUES, ops }
    }
}

const LINE: Op = Op::Line { work: 0, out: 0, fault: Fault::None };
const ACKS: Op = Op::Acks { work: 0, out: 0 };

/// Every stream of START, END and 00 of up to seven bytes, whole, and byte by byte; the limit reached and passed; every store length.
pub fn exhaustive(run: &mut Run) {
    for n in 0..=7 {
        for stream in strings(&[START, END, 0], n) {
            let whole = vec![Op::Push(stream.clone()), Op::TakeAll];
            run.case(&Session::of(9, 12, whole));
            let bytewise = stream.iter().flat_map(|&b| [Op::Push(vec![b]), Op::Find, Op::Take]).collect();
            run.case(&Session::of(9, 10, bytewise));
            run.case(&Session::of(9, 12, vec![Op::Push(stream.clone()), LINE, Op::LineAll]));
            run.case(&Session::of(9, 12, vec![Op::Push(stream), ACKS, ACKS]));
        }
    }
    for limit in [9, 10, 63, 64, 65, 254, 255, 256, 257, 8_191, 8_192, 8_193, 65_535, 65_536] {
        for noise in [0, 1, 5] {
            for first in limit - 1..=limit + 1 {
                for next in [END, START, 0] {
                    let begin = [vec![0; noise], vec![START], vec![0; first - 1]].concat();
                    let ops = vec![
                        Op::Push(begin),
                        Op::Take,
                        Op::Push(vec![next]),
                        Op::Find,
                        LINE,
                        Op::Push(vec![END]),
                        Op::TakeAll,
                        Op::Push(framed(0x0C, 0, &[0xD7, 1, 0, 0])),
                        Op::LineAll,
                    ];
                    run.case(&Session::of(limit, limit + 20, ops));
                }
            }
        }
        for store in limit - 1..=limit + 3 {
            for held in store - 2..=store + 1 {
                let ops = vec![Op::Push(vec![START; held]), Op::Find, Op::Push(vec![END]), LINE, Op::Take, Op::Push(vec![])];
                run.case(&Session::of(limit, store, ops));
            }
        }
    }
    // States and stores that no session leads to.
    for limit in [0, 8, 9, 10, 64, 65_536, 65_537, usize::MAX] {
        for store in [0usize, 1, 8, 9, 10, 11, 64, 65, 66, 65_536, 65_537] {
            for count in [0, 1, store.saturating_sub(1), store, store + 1, usize::MAX] {
                // A lower refusal comes before 27.
                for full in [0, u64::MAX] {
                    let ops = vec![
                        Op::State(ours::Scanner { limit, count, pushed: full, handed: full, dropped: full }),
                        Op::Push(vec![START]),
                        Op::Push(vec![]),
                        Op::Push(vec![START; 12]),
                        Op::Find,
                        LINE,
                        Op::AllLines { work: 0, room: 9, fault: Fault::None },
                        Op::Acks { work: -1, out: 0 },
                        ACKS,
                        Op::Skip { dropped: 1, handed: 0 },
                        Op::Take,
                    ];
                    run.case(&Session::of(limit, store, ops));
                }
            }
        }
    }
    full_counts(run);
    stations(run);
    // Every room of the output and of the work area round a line's needs.
    for (data_type, command, entry) in HOUSE {
        let frame = framed(data_type, 1, &accepted(&mut Choice::new(4), entry, command));
        for out in -40..=3 {
            for work in [0, 1, -1] {
                let ops = vec![Op::Push(frame.clone()), Op::Line { work, out, fault: Fault::None }, Op::LineAll];
                run.case(&Session::of(4_096, 4_100, ops));
            }
        }
    }
    // Batteries of every level in every cell of every layout: by a line call, first with an output that is a byte short, and by one for all.
    for (level, payload) in every_level(0x25) {
        let frame = framed(0x0C, level % 2, &payload);
        let ops = vec![
            Op::Push(frame.clone()),
            Op::Line { work: 0, out: -1, fault: Fault::None },
            LINE,
            Op::Push(frame),
            Op::AllLines { work: 0, room: 60, fault: Fault::None },
        ];
        run.case(&Session::of(64, 70, ops));
    }
}

/// Counts with every room from none to more than a call needs.
fn full_counts(run: &mut Run) {
    const NONE: u64 = u64::MAX;
    for n in 0..=12 {
        for room in 0..=13 {
            let pushed = below_greatest(room);
            for counts in [[pushed, 0, 0], [pushed, NONE, NONE]] {
                let ops = vec![Op::Counts(counts), Op::Push(vec![START; n]), Op::Push(vec![]), Op::Push(vec![END]), Op::Take];
                run.case(&Session::of(9, 12, ops));
            }
        }
    }
    let mut streams: Vec<Vec<u8>> = (0..=5).flat_map(|n| strings(&[START, END, 0], n)).collect();
    // The limit reached and passed; three spans; a tail that stays.
    for noise in [0, 2] {
        streams.extend([8, 9, 10].map(|n| [vec![0; noise], vec![START], vec![0; n - 1]].concat()));
    }
    streams.push(vec![START, END, START, 0, END, 0, START, END, 0, 0]);
    streams.push(vec![0, START, END, 0, START, END, 0, START, END, 0, START]);
    for stream in streams {
        for handed in 0..=stream.len().min(8) {
            for dropped in 0..=stream.len() + 1 {
                let counts = [NONE, below_greatest(handed), below_greatest(dropped)];
                let begin = [Op::Push(stream.clone()), Op::Counts(counts)];
                let line = |work, out| Op::Line { work, out, fault: Fault::None };
                let all = |work, room, fault| Op::AllLines { work, room, fault };
                for calls in [
                    vec![Op::TakeAll],
                    // Work areas and outputs that are too short, and then long enough.
                    vec![line(-1, 0), line(0, -1), Op::LineAll],
                    vec![all(-1, 9, Fault::None), all(0, 9, Fault::None)],
                    vec![all(0, 20, Fault::Short), all(1, 20, Fault::None)],
                    vec![Op::Acks { work: -1, out: 0 }, ACKS],
                ] {
                    run.case(&Session::of(9, 12, [&begin[..], &calls].concat()));
                }
            }
        }
    }
    for held in 0..=4 {
        for [dropped, handed] in [0, 1, 2, 4, 5, usize::MAX].map(|d| [0, 1, 3, 4, 5, usize::MAX].map(|h| [d, h])).concat() {
            for room in strings(&[0, 1, 2, 3, 4, 5], 2) {
                let counts = [NONE, below_greatest(room[0].into()), below_greatest(room[1].into())];
                let ops = vec![Op::Push(vec![0; held]), Op::Counts(counts), Op::Skip { dropped, handed }];
                run.case(&Session::of(9, 12, ops));
            }
        }
    }
}

/// Station calls: every type with every sequence, each byte at each place of a frame, every room of the output and round that of the work area,
/// a START behind the last span that the limit clears or not, and counts that each byte of the takes could pass.
fn stations(run: &mut Run) {
    for data_type in 0..=255 {
        let ops = (0..=255).flat_map(|seq| [Op::Push(framed(data_type, seq, &[])), ACKS]).collect();
        run.case(&Session::of(64, 65, ops));
    }
    let frames = [0xC2, 0xC6, 0xC4].map(|seq| framed(0x0C, seq, &[]));
    let frame = framed(0x0E, 0xC5, &[0x23, END, SENTRY]);
    for at in 0..frame.len() {
        for b in 0..=255 {
            let mut changed = frame.clone();
            changed[at] = b;
            let held = [&frames[0][..], &changed, &frames[1]].concat();
            run.case(&Session::of(64, 70, vec![Op::Push(held), Op::Acks { work: 0, out: -1 }, ACKS]));
        }
    }
    // Acks of 9, 10 and 11 bytes, among other spans and other bytes.
    let held =
        [&[0][..], &frames[0], &framed(0x01, 1, &[]), &frames[1], &[START, 0, END, 0, 0], &frames[2], &[0, START, 0]].concat();
    for out in -31..=3 {
        for work in [-70, -1, 0, 1] {
            let ops = vec![Op::Push(held.clone()), Op::Acks { work, out }, Op::TakeAll];
            run.case(&Session::of(40, 70, ops));
        }
    }
    let [handed, dropped] = [9 + 9 + 9 + 3 + 9, 1 + 2 + 1];
    for handed in 0..=handed + 1 {
        for dropped in 0..=dropped + 1 {
            let counts = [u64::MAX, below_greatest(handed), below_greatest(dropped)];
            let begin = [Op::Push(held.clone()), Op::Counts(counts)];
            for calls in
                [vec![Op::Acks { work: -1, out: -1 }, Op::Acks { work: 0, out: -1 }, ACKS], vec![Op::Take, ACKS, Op::TakeAll]]
            {
                run.case(&Session::of(40, 70, [&begin[..], &calls].concat()));
            }
        }
    }
    for limit in [9, 10, 63, 64, 65, 255, 256, 257, 8_191, 8_192, 8_193, 65_535, 65_536] {
        for before in [&[][..], &[0, 0], &frames[2], &held] {
            for n in limit - 1..=limit + 1 {
                let open = [before, &[START], &vec![0; n - 1]].concat();
                let ops = vec![Op::Push(open), ACKS, Op::Push(vec![END]), ACKS, Op::Push(frames[2].clone()), ACKS];
                run.case(&Session::of(limit, limit + 70, ops));
            }
        }
    }
}

/// A part of a stream: a frame that the plan names, another, a battery of any levels, a damaged one, noise, or what looks like a frame.
pub fn part(c: &mut Choice) -> Vec<u8> {
    match c.below(16) {
        0..5 => {
            let (data_type, command, entry) = c.of(&HOUSE);
            framed(data_type, c.byte(), &accepted(c, entry, command))
        }
        5 if c.one_in(4) => framed(0x0C, c.byte(), &setting_texts(&name(c), &name(c))),
        6 if c.one_in(4) => framed(0x0C, c.byte(), &any_levels(c, 0x23)),
        5 => {
            let names: Vec<Vec<u8>> = (0..c.below(4)).map(|_| name(c)).collect();
            framed(0x0E, c.byte(), &paired(c, 0x37, &names))
        }
        6 | 7 => {
            let (data_type, command, entry) = c.of(&HOUSE);
            let mut payload = accepted(c, entry, command);
            damage(c, &mut payload);
            framed(data_type, c.byte(), &payload)
        }
        8 | 9 => {
            let (data_type, command, entry) = c.of(&HOUSE);
            let mut frame = framed(data_type, c.byte(), &accepted(c, entry, command));
            damage(c, &mut frame);
            frame
        }
        10 => framed(0x01, c.below(2) as u8, &[]),
        11 => framed(c.byte(), c.byte(), &any(c)),
        12 => framed(c.of(&[0x0C, 0x0E]), c.byte(), &any(c)),
        13 => {
            let n = c.below(30);
            [&[START], &content(c, n)[..], &[END]].concat()
        }
        14 => (0..c.below(20)).map(|_| c.of(&MARKS)).collect(),
        _ => any(c),
    }
}

fn limit(c: &mut Choice) -> usize {
    match c.below(400) {
        0..60 => c.between(9, 40),
        60..150 => c.of(&[63, 64, 65, 100, 127, 128, 129]),
        150..260 => c.of(&[254, 255, 256, 257, 300, 512]),
        260..340 => c.of(&[1_000, 1_024, 2_048]),
        340..390 => c.of(&[4_096, 8_191, 8_192, 8_193]),
        390..396 => c.of(&[65_535, 65_536]),
        _ => c.of(&[0, 8, 65_537, usize::MAX]),
    }
}

fn fault(c: &mut Choice) -> Fault {
    match c.below(30) {
        0 => Fault::Short,
        1 => Fault::Long,
        2 => Fault::Entry { at: c.below(512), entry: c.between(9, 255) as u8 },
        _ => Fault::None,
    }
}

/// Counts that no session leads to: each by itself full, with little room, or anything. Every other time all are 0, since a full one stops a
/// session.
fn counts(c: &mut Choice) -> Counts {
    if c.one_in(2) {
        return [0; 3];
    }
    [0; 3].map(|_| match c.below(8) {
        0 => u64::MAX,
        1 => below_greatest(c.below(12)),
        2 | 3 => below_greatest(c.below(400)),
        4 => c.number(),
        _ => 0,
    })
}

/// How many bytes a caller says went: some of what is held, or far more.
fn skipped(c: &mut Choice, store: usize) -> usize {
    match c.below(6) {
        0 => c.of(&[usize::MAX, usize::MAX - 1, usize::MAX / 2 + 1, 1 << 32]),
        1 | 2 => c.below(8),
        _ => c.below(store + 2),
    }
}

/// What the caller does after a push.
fn next_op(c: &mut Choice, limit: usize, store: usize, other_counts: bool) -> Option<Op> {
    match c.below(45) {
        0..3 => Some(Op::Take),
        3..6 => Some(Op::Find),
        6..9 => Some(Op::TakeAll),
        9..13 => Some(LINE),
        13..17 => Some(Op::Line { work: room(c), out: room(c), fault: fault(c) }),
        17..24 => Some(Op::LineAll),
        24..30 => Some(Op::AllLines { work: 0, room: c.of(&[0, 4, 30, 100, 1_000, 100_000]) + c.below(12), fault: Fault::None }),
        30 => Some(Op::AllLines { work: room(c), room: c.below(400), fault: fault(c) }),
        31 => Some(Op::Skip { dropped: skipped(c, store), handed: skipped(c, store) }),
        32 => {
            let other = if c.one_in(2) { limit } else { c.between(8, store.max(8)) };
            let [pushed, handed, dropped] = if other_counts { counts(c) } else { [0; 3] };
            Some(Op::State(ours::Scanner { limit: other, count: c.below(store + 2), pushed, handed, dropped }))
        }
        34..38 if other_counts => Some(Op::Counts(counts(c))),
        40..43 => Some(ACKS),
        43 | 44 => Some(Op::Acks { work: room(c), out: room(c) }),
        33 => {
            let n = c.below(30);
            Some(Op::Store { at: c.below(store + 1), bytes: content(c, n) })
        }
        _ => None,
    }
}

/// A stream in random pieces, with calls between.
pub fn random(run: &mut Run, c: &mut Choice) {
    let limit = limit(c);
    let bound = limit.min(65_536);
    let store = match c.below(60) {
        0 => c.below(bound + 1),
        1..10 => bound + 1,
        10..30 => bound + 1 + c.below(bound + 1),
        _ => bound + 1 + c.below(40),
    };
    let mut stream = Vec::new();
    let parts = if store <= bound { 2 } else { c.below(40) };
    for _ in 0..parts {
        stream.extend(part(c));
    }
    for _ in 0..c.of(&[0, 0, 1, 4]) {
        damage(c, &mut stream);
    }
    let mut ops = Vec::new();
    let mut rest = &stream[..];
    let most = c.of(&[1, 20, 50, 100, 200, 300, 500, 1_000, 2_000, 5_000]).min(store.max(1));
    let other_counts = c.one_in(4);
    while !rest.is_empty() && ops.len() < 100 {
        let n = c.between(1, most.min(rest.len()));
        ops.push(Op::Push(rest[..n].to_vec()));
        rest = &rest[n..];
        ops.extend(next_op(c, limit, store, other_counts));
    }
    ops.push(Op::LineAll);
    ops.push(Op::Take);
    let plan = if c.one_in(3) { (0..512).map(|_| c.below(9) as u8).collect() } else { house_plan() };
    run.case(&Session { limit, store, plan, values: values(c), ops });
}
