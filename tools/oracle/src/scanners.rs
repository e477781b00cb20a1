//! Cases for `scanner`: the Rust's `Scanner` with `MAX_BUFFER` set to the limit, and lines of its spans under the house plan.
use crate::acks;
use crate::text::{Choice, List, field, lent, over, shown};
use common::counts;
use common::frames::{END, HOUSE, START, framed, house_plan};
use common::log::Log;
use original::mdr::{frame, frame_any};

const LIMITS: [usize; 5] = [9, 10, 64, 8_192, 65_536];

/// Bytes pushed, handed over and dropped.
pub type Counts = [u64; 3];

/// The most that a count can be.
pub const GREATEST: u64 = 18_446_744_073_709_551_615;

/// The house plan's length.
const PLAN: usize = 512;

/// Counts with so much room.
pub fn with_room(pushed: u64, handed: u64, dropped: u64) -> Counts {
    [pushed, handed, dropped].map(|room| GREATEST - room)
}

pub fn list() -> List {
    let mut s = Session::default();
    for limit in LIMITS {
        opens(&mut s, limit);
        at_the_limit(&mut s, limit);
        full(&mut s, limit);
        cuts(&mut s, limit);
        streams(&mut s, limit);
    }
    short_streams(&mut s);
    states(&mut s);
    full_pushes(&mut s);
    full_takes(&mut s);
    full_lines(&mut s);
    full_skips(&mut s);
    lower_first(&mut s);
    any_calls(&mut s);
    acks::cases(&mut s);
    for r in ["6", "18", "27"] {
        assert!(s.list.answers.contains(&format!("refused {r} ")), "no case is refused by {r}");
    }
    s.list
}

/// One `push` or `next_raw` of a Rust scanner that holds these bytes.
macro_rules! with {
    ($module:ident, $held:expr, $call:expr) => {{
        let mut scanner = $module::Scanner::new();
        scanner.push($held);
        let span = match $call {
            Some(piece) => {
                scanner.push(piece);
                None
            }
            None => scanner.next_raw(),
        };
        assert_eq!(scanner.buffered(), scanner.buf.len());
        (span, scanner.buf)
    }};
}

/// The span, if one is taken, and what is held afterwards. A piece is pushed; with none, the next span is taken.
pub fn rust(limit: usize, held: &[u8], piece: Option<&[u8]>) -> (Option<Vec<u8>>, Vec<u8>) {
    if limit == frame::MAX_BUFFER {
        return with!(frame, held, piece);
    }
    frame_any::LIMIT.set(limit);
    with!(frame_any, held, piece)
}

/// A scanner and its store, as the calls leave them; `acks.rs` goes on with station calls.
#[derive(Default)]
pub struct Session {
    pub list: List,
    pub limit: usize,
    pub count: usize,
    counts: Counts,
    pub store: Vec<u8>,
}

/// What a take comes to: the span, how many bytes go beside it, and what is held then.
struct Taken {
    span: Option<Vec<u8>>,
    dropped: usize,
    held: Vec<u8>,
}

impl Session {
    // OURS, by documents 01 and 02: the Rust has no lent store, no plan, and counts nothing, so the refusals 1 to 7 and 27, the counts, and
    // what the store holds, are computed here.

    /// Refusals 1 to 3, the lowest first.
    pub fn refused(&self) -> Option<u8> {
        if !(9..=65_536).contains(&self.limit) {
            Some(1)
        } else if self.store.len() < self.limit + 1 {
            Some(2)
        } else if self.store.len() < self.count {
            Some(3)
        } else {
            None
        }
    }

    /// Refusal 27: what is added to a count is more than it has room for.
    pub fn full(&self, adds: Counts) -> Option<u8> {
        self.counts.iter().zip(adds).any(|(count, n)| GREATEST - count < n).then_some(27)
    }

    fn add(&mut self, adds: Counts) {
        for (count, n) in self.counts.iter_mut().zip(adds) {
            *count += n;
        }
    }

    pub fn answer(&mut self, case: String, answer: String) {
        let [pushed, handed, dropped] = self.counts;
        let state = format!("{} {pushed} {handed} {dropped} {}", self.count, shown(&self.store));
        self.list.add(case, format!("{} {state}", answer.trim_end()));
    }

    pub fn open(&mut self, limit: usize, n: usize) {
        (self.limit, self.count, self.counts, self.store) = (limit, 0, [0; 3], lent(n));
        let answer = match self.refused() {
            Some(r) => format!("refused {r}"),
            None => {
                self.store = vec![0; n];
                "open".into()
            }
        };
        self.answer(format!("o {limit} {n}"), answer);
    }

    pub fn set(&mut self, limit: usize, count: usize, counts: Counts) {
        (self.limit, self.count, self.counts) = (limit, count, counts);
        let [pushed, handed, dropped] = counts;
        self.list.add(format!("s {limit} {count} {pushed} {handed} {dropped}"), "set".into());
    }

    /// The counts alone are others.
    pub fn recount(&mut self, counts: Counts) {
        self.set(self.limit, self.count, counts);
    }

    fn pushed(&mut self, case: String, piece: &[u8]) {
        let adds = [piece.len() as u64, 0, 0];
        let refused = self.refused().or((self.count + piece.len() > self.store.len()).then_some(4)).or(self.full(adds));
        let answer = match refused {
            Some(r) => format!("refused {r}"),
            None => {
                let (_, held) = rust(self.limit, &self.store[..self.count], Some(piece));
                self.store[..held.len()].copy_from_slice(&held);
                self.count = held.len();
                self.add(adds);
                "stored".into()
            }
        };
        self.answer(case, answer);
    }

    pub fn push(&mut self, piece: &[u8]) {
        self.pushed(format!("b {}", field(piece)), piece);
    }

    pub fn copies(&mut self, n: usize, b: u8) {
        self.pushed(format!("n {n} {b}"), &vec![b; n]);
    }

    /// The next take, and what it adds to the counts.
    fn next(&self) -> (Taken, Counts) {
        let before = &self.store[..self.count];
        let (span, held) = rust(self.limit, before, None);
        let len = span.as_ref().map_or(0, Vec::len);
        let dropped = counts::dropped(before, span.as_deref(), &held);
        (Taken { span, dropped, held }, [0, len as u64, dropped as u64])
    }

    /// What stays, at the front of the store, and zeros.
    pub fn keep(&mut self, held: Vec<u8>, adds: Counts) {
        self.add(adds);
        self.count = held.len();
        let n = self.store.len();
        self.store = held;
        self.store.resize(n, 0);
    }

    /// Whether a span was taken.
    pub fn take(&mut self) -> bool {
        if let Some(r) = self.refused() {
            self.answer("t".into(), format!("refused {r} . refused {r}"));
            return false;
        }
        let (Taken { span, dropped, held }, adds) = self.next();
        let (seen, went) = match &span {
            Some(span) => (format!("{dropped} {} {}", span.len(), shown(span)), "span"),
            None => ("none . ".into(), "none"),
        };
        if let Some(r) = self.full(adds) {
            self.answer("t".into(), format!("{seen}refused {r}"));
            return false;
        }
        self.keep(held, adds);
        self.answer("t".into(), format!("{seen}{went}"));
        span.is_some()
    }

    fn take_all(&mut self) {
        while self.take() {}
    }

    fn skip(&mut self, dropped: usize, handed: usize) {
        let case = format!("k {dropped} {handed}");
        let dropped = dropped.min(self.count);
        let handed = handed.min(self.count - dropped);
        let adds = [0, handed as u64, dropped as u64];
        match self.refused().or(self.full(adds)) {
            Some(r) => self.answer(case, format!("refused {r}")),
            None => {
                self.keep(self.store[dropped + handed..self.count].to_vec(), adds);
                self.answer(case, "gone".into());
            }
        }
    }

    /// A line call under the first bytes of the house plan, in this work area and behind the lines that are in the output: the line, empty
    /// where there is no span, or a refusal.
    fn next_line(&mut self, work: &mut [u8], room: usize, plan: usize) -> Result<Vec<u8>, u8> {
        let bad_plan = (plan < PLAN).then_some(5);
        if let Some(r) = self.refused().or(bad_plan).or((work.len() < self.store.len()).then_some(6)) {
            return Err(r);
        }
        let (taken, adds) = self.next();
        if let Some(r) = self.full(adds) {
            return Err(r);
        }
        work.fill(0);
        let mut line = vec![];
        if let Some(span) = &taken.span {
            Log::default().line(&house_plan(), span, &mut line);
        }
        if room < line.len() {
            return Err(7);
        }
        self.keep(taken.held, adds);
        Ok(line)
    }

    fn line(&mut self, work_len: usize, room: usize) {
        self.line_under(work_len, room, PLAN);
    }

    fn line_under(&mut self, work_len: usize, room: usize, plan: usize) {
        let mut work = lent(work_len);
        let (answer, line) = match self.next_line(&mut work, room, plan) {
            Err(r) => (format!("refused {r}"), vec![]),
            Ok(line) if line.is_empty() => ("none".into(), line),
            Ok(line) => (format!("line {}", line.len()), line),
        };
        let answer = format!("{answer} {}{}", shown(&work), shown(&over(&line, room)));
        self.answer(format!("l {work_len} {room} {plan}"), answer);
    }

    fn all_lines(&mut self, work_len: usize, room: usize) {
        self.all_lines_under(work_len, room, PLAN);
    }

    fn all_lines_under(&mut self, work_len: usize, room: usize, plan: usize) {
        let mut work = lent(work_len);
        let mut lines = vec![];
        let last = loop {
            match self.next_line(&mut work, room - lines.len(), plan) {
                Err(r) => break format!("refused {r}"),
                Ok(line) if line.is_empty() => break "none".into(),
                Ok(line) => lines.extend(line),
            }
        };
        let answer = format!("{} {last} {}{}", lines.len(), shown(&work), shown(&over(&lines, room)));
        self.answer(format!("a {work_len} {room} {plan}"), answer);
    }
}

fn opens(s: &mut Session, limit: usize) {
    for n in [0, limit, limit + 1, limit + 40] {
        s.open(limit, n);
        s.take();
        s.push(&[START, END]);
        s.take_all();
    }
}

/// From START on exactly the limit, and one more; an END that comes then; noise before.
fn at_the_limit(s: &mut Session, limit: usize) {
    for noise in [0, 1, 5] {
        for end in [false, true] {
            for first in [limit - 1, limit, limit + 1] {
                s.open(limit, limit + 20);
                s.copies(noise, 0);
                s.push(&[START]);
                s.copies(first - 1, 0);
                s.take();
                s.push(&[if end { END } else { 0 }]);
                s.take();
                s.push(&[if end { 0 } else { END }]);
                s.take_all();
                s.push(&[START, 7, END, 8]);
                s.take_all();
            }
        }
    }
}

/// Pieces that fill the store exactly, and one byte more than fits.
fn full(s: &mut Session, limit: usize) {
    for n in [limit + 1, limit + 9] {
        s.open(limit, n);
        s.copies(n + 1, 0x41);
        s.copies(n, 0x41);
        s.push(&[0]);
        s.push(&[]);
        s.take();
        s.push(&[0, START, 1]);
        s.copies(n - 2, END);
        s.copies(n - 3, END);
        s.push(&[START]);
        s.take_all();
        s.push(&[START]);
        s.copies(n - 2, START);
        s.push(&[END]);
        s.push(&[END]);
        s.take_all();
        s.take();
    }
}

/// Streams with two spans, START inside a span, END before START, and noise; cut in two at every place, and byte by byte.
fn cuts(s: &mut Session, limit: usize) {
    let streams: [&[u8]; 7] = [
        &[START, 1, 2, END, START, 3, END],
        &[0, START, 1, START, 2, END, END, 5, START, END],
        &[END, 0, END, START, 1, END, 9],
        &[START, START, START, END],
        &[7, 8, 9],
        &[START, END, START, END, START],
        &[START, 0x3D, 0x2C, 0, 0, 0, 0, 0, END],
    ];
    for stream in streams {
        for at in 0..=stream.len() {
            s.open(limit, limit + 12);
            s.push(&stream[..at]);
            s.take_all();
            s.push(&stream[at..]);
            s.take_all();
        }
        s.open(limit, limit + 12);
        for &b in stream {
            s.push(&[b]);
        }
        s.take_all();
    }
}

/// Any streams in any pieces.
fn streams(s: &mut Session, limit: usize) {
    let mut c = Choice::new(limit as u64);
    let sessions = if limit < 100 { 40 } else { 4 };
    for _ in 0..sessions {
        s.open(limit, limit + 1 + c.below(30));
        for _ in 0..25 {
            let n = c.below(12);
            let piece: Vec<u8> = (0..n).map(|_| c.of(&[START, END, 0x3D, 0, 0x41, 0x42, 0x43])).collect();
            match c.below(6) {
                0 => s.copies(c.below(limit + 2), 0),
                1 => s.copies(c.below(limit / 2), 0x41),
                _ => s.push(&piece),
            }
            match c.below(3) {
                0 => {}
                1 => {
                    s.take();
                }
                _ => s.take_all(),
            }
        }
        s.take_all();
        s.take();
    }
}

/// Every stream of START, END and 00 of up to five bytes, whole and byte by byte.
fn short_streams(s: &mut Session) {
    for n in 0..=5 {
        for i in 0..3usize.pow(n) {
            let stream: Vec<u8> = (0..n).map(|k| [START, END, 0][i / 3usize.pow(k) % 3]).collect();
            s.open(9, 12);
            s.push(&stream);
            s.take_all();
            if n == 4 {
                s.open(9, 10);
                for &b in &stream {
                    s.push(&[b]);
                    s.take();
                }
            }
        }
    }
}

/// Any state and store, as a caller may give them: the refusals 1 to 3, and a store whose bytes behind the held ones are not zero.
fn states(s: &mut Session) {
    for (limit, n) in [(8, 20), (0, 0), (65_537, 20), (9, 9), (9, 10), (10, 10), (64, 65), (65_536, 65_536)] {
        s.open(limit, n);
        for count in [0, 1, n.saturating_sub(1), n, n + 1, n + 1000] {
            s.set(limit, count, [0; 3]);
            s.push(&[START]);
            s.set(limit, count, [0; 3]);
            s.push(&[]);
            s.take();
        }
    }
    // The store of a refused opening holds what it held before.
    let mut c = Choice::new(9);
    for _ in 0..150 {
        s.open(8, 10 + c.below(60));
        let n = s.store.len();
        s.set(9, c.below(n + 1), [0; 3]);
        for _ in 0..3 {
            s.take();
            s.push(&[c.of(&[START, END, 0])]);
            let count = c.below(n + 1);
            s.set(9, count, [0; 3]);
        }
    }
}

// Counts next to the greatest.

/// A scanner with limit 9 that holds these bytes, and these counts.
fn near(s: &mut Session, held: &[u8], counts: Counts) {
    s.open(9, 16);
    s.push(held);
    s.recount(counts);
}

/// What holds nothing, noise, a span with and without noise, a START whose END has not come, alone and behind noise, and what is cleared.
fn held() -> [Vec<u8>; 11] {
    let open = |n: usize| [vec![START], vec![7; n - 1]].concat();
    [
        vec![],
        vec![7],
        vec![7, END, 8],
        vec![START, END],
        vec![7, 8, START, 9, END, 6],
        vec![START, START, END, START, 1, END],
        open(3),
        [vec![7, 8], open(9)].concat(),
        open(10),
        [vec![7, 8], open(10)].concat(),
        open(16),
    ]
}

/// Rooms below what is added, at it and above it, and the least.
pub fn rooms(adds: u64) -> Vec<u64> {
    let mut rooms = vec![0, 1, adds.saturating_sub(1), adds, adds + 1];
    rooms.sort();
    rooms.dedup();
    rooms
}

/// Pieces of each length with room for it, for one less and for one more, the other counts full or not; and one more byte after a take.
fn full_pushes(s: &mut Session) {
    for held in [&[][..], &[START, 1, 2]] {
        for n in [0, 1, 2, 5, 13, 16] {
            for room in rooms(n) {
                for [handed, dropped] in [[0, 0], [GREATEST, GREATEST]] {
                    near(s, held, [GREATEST - room, handed, dropped]);
                    s.copies(n as usize, 0x41);
                    s.push(&[]);
                    s.push(&[END]);
                }
            }
        }
    }
    for room in [0, 1, 2] {
        for by_line in [false, true] {
            near(s, &[7], [GREATEST - room, 0, 0]);
            if by_line {
                s.line(16, 0);
            } else {
                s.take();
            }
            s.push(&[START]);
        }
    }
}

/// Takes and line calls with every such room: a line that fits, one that does not, a work area or a plan that is too short.
fn full_takes(s: &mut Session) {
    for held in held() {
        s.open(9, 16);
        s.push(&held);
        let (_, [_, adds_handed, adds_dropped]) = s.next();
        for handed in rooms(adds_handed) {
            for dropped in rooms(adds_dropped) {
                let counts = with_room(0, handed, dropped);
                near(s, &held, counts);
                s.take();
                s.take();
                near(s, &held, counts);
                s.line_under(15, 4, PLAN - 1);
                s.line(15, 4);
                s.line(16, 4);
                s.take();
                near(s, &held, counts);
                s.all_lines_under(15, 4, PLAN - 1);
                s.all_lines(15, 4);
                s.all_lines(16, 4);
                s.take();
                for more in [0, 2] {
                    near(s, &held, counts);
                    s.line(16 + more, 5 + more);
                    s.take();
                    near(s, &held, counts);
                    s.all_lines(16 + more, 20 + more);
                    s.take();
                }
            }
        }
    }
}

/// Three spans, noise before and between them, and a tail that stays, goes or is not there: 27 at each span and behind the last, by either
/// count, with an output for none of the lines, some and all.
fn full_lines(s: &mut Session) {
    let spans = [0, START, END, 0, 0, START, 1, END, START, 2, 3, END];
    for tail in [&[][..], &[0, 0], &[0, START, 1]] {
        let held = [&spans, tail].concat();
        for room in [0, 5, 9, 10, 15, 20] {
            for handed in 0..=10 {
                near(s, &held, with_room(0, handed, 6));
                s.all_lines(16, room);
                s.all_lines(17, 20);
            }
            for dropped in 0..=6 {
                near(s, &held, with_room(0, 9, dropped));
                s.all_lines(16, room);
                s.take();
            }
        }
    }
    // Lines of every letter.
    let device = [&[0x37, 0x02, 1], &[b'a'; 17][..], &[1, 0, 0, 0, 2], b"Al", &[0]].concat();
    let frames = [framed(0x0C, 0, &[0x23, 0x00, 0x50, 0x01]), framed(0x0E, 1, &device), framed(0x01, 1, &[]), vec![START, 1, END]];
    let stream = frames.iter().flat_map(|frame| [&[END], &frame[..]].concat()).collect::<Vec<u8>>();
    let mut handed = 0;
    for frame in &frames {
        handed += frame.len() as u64;
        for room in [handed - 1, handed] {
            for n in [400, 40] {
                s.open(64, 128);
                s.push(&stream);
                s.recount(with_room(GREATEST, room, 4));
                s.all_lines(128, n);
                s.line(128, n);
                s.take();
                s.recount([0; 3]);
                s.all_lines(140, n);
            }
        }
    }
    // The longest span that is sure to be kept.
    for room in [65_536, 65_537] {
        s.open(65_536, 70_000);
        s.push(&[START]);
        s.copies(65_535, 0x41);
        s.push(&[END, START]);
        s.recount(with_room(0, room, 0));
        s.line(69_999, 5);
        s.line(70_000, 4);
        s.line(70_001, 140_000);
        s.all_lines(70_000, 0);
    }
}

/// More and less than is held, up to the most that a caller can ask for.
fn full_skips(s: &mut Session) {
    let most = usize::MAX;
    for held in [&[][..], &[7], &[7, START, 8, END, 9]] {
        for (dropped, handed) in [(0, 0), (1, 0), (0, 1), (1, 3), (2, 2), (0, 6), (6, 0), (1, most), (most, 1), (most, most)] {
            let d = dropped.min(held.len()) as u64;
            let h = handed.min(held.len() - d as usize) as u64;
            for counts in [[0; 3], with_room(0, h, d), with_room(0, h + 1, d + 1)] {
                near(s, held, counts);
                s.skip(dropped, handed);
            }
            for counts in [(h > 0).then(|| with_room(0, h - 1, d)), (d > 0).then(|| with_room(0, h, d - 1))].into_iter().flatten() {
                near(s, held, counts);
                s.skip(dropped, handed);
            }
        }
    }
}

/// 1 to 6 where 27 is due too, and each lower one where a higher is.
fn lower_first(s: &mut Session) {
    let full = [GREATEST; 3];
    for (limit, n, count) in [(8, 16, 3), (65_537, 16, 3), (16, 16, 3), (9, 16, 17), (9, 16, 16), (9, 16, 12)] {
        s.open(limit, n);
        s.push(&[7, 7, START, 1, END]);
        s.set(limit, count, full);
        s.push(&[1, 1, 1, 1, 1]);
        s.push(&[]);
        s.take();
        s.skip(1, 1);
        for plan in [0, PLAN - 1, PLAN] {
            for work in [15, 16] {
                s.line_under(work, 4, plan);
                s.all_lines_under(work, 4, plan);
            }
        }
    }
}

/// Any calls in any order, with counts that are set now and then.
fn any_calls(s: &mut Session) {
    let mut c = Choice::new(17);
    for limit in [9, 10, 64] {
        for _ in 0..40 {
            let n = limit + 1 + c.below(30);
            s.open(limit, n);
            for _ in 0..25 {
                match c.below(3) {
                    0 => {
                        let (data_type, command, _) = HOUSE[c.below(HOUSE.len())];
                        let mut payload = vec![command];
                        payload.extend((0..c.below(6)).map(|_| c.of(&[0, 1, 2, START, END])));
                        s.push(&framed(data_type, c.byte(), &payload));
                    }
                    1 => s.copies(c.below(limit), 0x41),
                    _ => {
                        let piece: Vec<u8> = (0..c.below(12)).map(|_| c.of(&[START, END, 0x3D, 0, 0x41])).collect();
                        s.push(&piece);
                    }
                }
                match c.below(10) {
                    0 | 1 => drop(s.take()),
                    2 | 3 => s.line(n + c.below(2), c.below(40)),
                    4 | 5 => s.all_lines(n + c.below(2), c.below(80)),
                    6 => s.skip(c.below(n), c.below(n)),
                    7 => s.recount([0; 3].map(|_| match c.below(4) {
                        0 => 0,
                        1 => GREATEST,
                        2 => GREATEST - c.below(30) as u64,
                        _ => GREATEST - c.below(200) as u64,
                    })),
                    8 => s.recount([0; 3]),
                    _ => s.all_lines(n, 200),
                }
            }
        }
    }
}
