//! More cases of `scanner`, for station calls: the acks of all spans that the Rust's `Scanner`, with `MAX_BUFFER` set to the limit, hands over until it has none, by its
//! `unpack` and `ack_frame`.
use crate::scanners::{Counts, GREATEST, Session, rooms, rust, with_room};
use crate::text::{lent, over, shown};
use common::acks;
use common::choice::Choice;
use common::counts;
use common::frames::{END, HOUSE, MARKS, SENTRY, START, accepted, body, damage, escaped, framed, raw_starts};
use common::streams::{KINDS, Kind, stream};

pub fn cases(s: &mut Session) {
    by_hand(s);
    types_and_sequences(s);
    damaged(s);
    raw_markers(s);
    for limit in [9, 10, 64, 8_192] {
        tails(s, limit);
    }
    every_room(s);
    longest_acks(s);
    long_spans(s);
    full_counts(s);
    full_at_each_take(s);
    lower_first(s);
    states(s);
    for (kind, seed) in KINDS.into_iter().zip(301..) {
        sessions(s, kind, seed);
    }
    any_calls(s);
}

/// What the Rust's takes come to, until one finds no span: the acks of their spans, what is held then, and what the counts gain.
struct Takes {
    acks: Vec<u8>,
    held: Vec<u8>,
    adds: Counts,
}

impl Session {
    fn takes(&self) -> Takes {
        let (mut spans, mut adds) = (vec![], [0; 3]);
        let mut before = self.store[..self.count].to_vec();
        loop {
            let (span, held) = rust(self.limit, &before, None);
            adds[2] += counts::dropped(&before, span.as_deref(), &held) as u64;
            before = held;
            let Some(span) = span else { break };
            adds[1] += span.len() as u64;
            spans.push(span);
        }
        let acks = acks::of_spans(&spans);
        assert!(acks.len() <= self.count / 9 * 11);
        Takes { acks, held: before, adds }
    }

    // OURS, by 02's C-22: the Rust has no call for all acks, no lent buffers, and counts nothing, so the refusals 1 to 3, 6, 18 and 27, the
    // counts, and what store, work area and output hold, are computed here.

    fn acks_in(&mut self, work: &mut [u8], room: usize) -> Result<Vec<u8>, u8> {
        if let Some(r) = self.refused().or((work.len() < self.store.len()).then_some(6)) {
            return Err(r);
        }
        let Takes { acks, held, adds } = self.takes();
        if room < acks.len() {
            work.fill(0);
            return Err(18);
        }
        if let Some(r) = self.full(adds) {
            return Err(r);
        }
        work.fill(0);
        self.keep(held, adds);
        Ok(acks)
    }

    fn acknowledge(&mut self, work_len: usize, room: usize) -> Result<Vec<u8>, u8> {
        let mut work = lent(work_len);
        let acked = self.acks_in(&mut work, room);
        let (answer, acks) = match &acked {
            Err(r) => (format!("refused {r}"), &[][..]),
            Ok(acks) => (format!("acks {}", acks.len()), &acks[..]),
        };
        let answer = format!("{answer} {}{}", shown(&work), shown(&over(acks, room)));
        self.answer(format!("c {work_len} {room}"), answer);
        acked
    }

    /// With a work area that is a byte too short, an output that is, if anything is to be written, and then with exactly enough.
    fn with_just_enough(&mut self) {
        let (work, room) = (self.store.len(), self.takes().acks.len());
        let _ = self.acknowledge(work - 1, room);
        if room > 0 {
            assert_eq!(self.acknowledge(work, room - 1), Err(18));
        }
        let _ = self.acknowledge(work, room);
    }
}

/// A scanner that holds these bytes.
fn holding(s: &mut Session, limit: usize, store: usize, held: &[u8]) {
    s.open(limit, store);
    s.push(held);
}

/// Acks that are written down, those of document 01 among them, with more and with just enough room.
fn by_hand(s: &mut Session) {
    let ack_of_0 = [0x3E, 0x01, 0x01, 0, 0, 0, 0, 0x02, 0x3C];
    let ack_of_1 = [0x3E, 0x01, 0x00, 0, 0, 0, 0, 0x01, 0x3C];
    let battery = |seq| framed(0x0C, seq, &[0x23, 0x00, 0x50, 0x01]);
    let cases: [(Vec<u8>, Vec<u8>); 14] = [
        (vec![], vec![]),
        (battery(0), ack_of_0.to_vec()),
        (battery(1), ack_of_1.to_vec()),
        (battery(2), vec![0x3E, 0x01, 0xFF, 0, 0, 0, 0, 0x00, 0x3C]),
        (battery(0xC2), vec![0x3E, 0x01, 0x3F, 0, 0, 0, 0, 0x40, 0x3C]),
        (battery(0xC3), vec![0x3E, 0x01, 0x3D, 0x2E, 0, 0, 0, 0, 0x3F, 0x3C]),
        (battery(0xC4), vec![0x3E, 0x01, 0x3D, 0x2D, 0, 0, 0, 0, 0x3D, 0x2E, 0x3C]),
        (battery(0xC5), vec![0x3E, 0x01, 0x3D, 0x2C, 0, 0, 0, 0, 0x3D, 0x2D, 0x3C]),
        (battery(0xC6), vec![0x3E, 0x01, 0x3B, 0, 0, 0, 0, 0x3D, 0x2C, 0x3C]),
        (battery(0xC7), vec![0x3E, 0x01, 0x3A, 0, 0, 0, 0, 0x3B, 0x3C]),
        // Acks get none, with a payload neither; refused spans get none.
        ([framed(0x01, 0, &[]), framed(0x01, 1, &[1, 2])].concat(), vec![]),
        (vec![START, END, START, 0x0C, 0, 0, 0, 0, 0, 0x0D, END], vec![]),
        // In the order of the spans, whatever stands between them.
        ([battery(1), vec![7, END], framed(0x01, 0, &[]), battery(0)].concat(), [ack_of_1, ack_of_0].concat()),
        (
            [&[END, 7][..], &battery(0), &[START, END, 8], &framed(0x77, 1, &[]), &[START, 1]].concat(),
            [ack_of_0, ack_of_1].concat(),
        ),
    ];
    for (held, acks) in cases {
        for more in [0, 1, 7] {
            holding(s, 64, 80, &held);
            assert_eq!(s.acknowledge(80 + more, acks.len() + more), Ok(acks.clone()));
            // Nothing is left to acknowledge.
            assert_eq!(s.acknowledge(80, 0), Ok(vec![]));
        }
    }
}

/// Every type but that of an ack is acknowledged, every sequence gives its ack, alone and behind one another.
fn types_and_sequences(s: &mut Session) {
    s.open(64, 96);
    for b in 0..=255 {
        s.push(&framed(b, b.wrapping_mul(7), &[]));
        s.with_just_enough();
        s.push(&framed(0x0C, b, &[0x22]));
        s.with_just_enough();
    }
    s.open(8_192, 12_288);
    for data_type in [0x0C, 0x01, 0x3E] {
        s.push(&(0..=255).flat_map(|seq| framed(data_type, seq, &[])).collect::<Vec<u8>>());
    }
    s.with_just_enough();
    s.push(&(0..=255).flat_map(|b| framed(b, 0xC8u8.wrapping_sub(b % 8), &[])).collect::<Vec<u8>>());
    s.with_just_enough();
}

/// A frame with damage, between two that are whole.
fn damaged(s: &mut Session) {
    let whole = framed(0x0E, 0xC5, &[]);
    let mut spans = vec![];
    let frame = framed(0x0C, 1, &[0x23, END, 0x50, SENTRY]);
    for at in 0..frame.len() {
        for b in MARKS {
            let mut changed = frame.clone();
            changed[at] = b;
            spans.push(changed);
            let mut more = frame.clone();
            more.insert(at, b);
            spans.push(more);
        }
        let mut less = frame.clone();
        less.remove(at);
        spans.push(less);
        spans.push(frame[..at].to_vec());
    }
    // Every sum but one is false.
    for sum in 0..=255 {
        spans.push(escaped(&[0x0C, 0, 0, 0, 0, 1, 0x23, sum]));
    }
    // A true sum and a false length, more and less than there is.
    for declared in [0, 1, 2, 4, 5, 255, 256, 0x0100_0003, u32::MAX] {
        spans.push(escaped(&body(0x0C, 1, declared, &[0x23, 0x00, 0x50])));
    }
    // Too short, in bytes and in what they stand for.
    for n in 0..=8 {
        spans.push([vec![START], vec![0; n], vec![END]].concat());
        spans.push([vec![START], [SENTRY, 0x2C].repeat(n), vec![END]].concat());
    }
    // A sentry at the end, and before what it cannot stand before.
    spans.push(vec![START, 0x0C, 0, 0, 0, 0, 0, 0x0C, SENTRY, END]);
    for b in [0x00, 0x2B, 0x2F, SENTRY, START, 0xFF] {
        spans.push(vec![START, 0x0C, 0, 0, 0, 0, 0, SENTRY, b, END]);
    }
    for span in spans {
        holding(s, 64, 70, &[&whole[..], &span, &whole].concat());
        let n = s.takes().acks.len();
        let _ = s.acknowledge(70, n);
    }
}

/// START stands unescaped at each place of a frame that is accepted, and at several.
fn raw_markers(s: &mut Session) {
    for (data_type, seq) in [(START, 0), (0x0C, START), (START, START), (0x01, START)] {
        for payload in [&[][..], &[START], &[0x23, START, END, SENTRY, START]] {
            let span = raw_starts(framed(data_type, seq, payload));
            holding(s, 64, 70, &[&[7], &span[..], &[START], &span].concat());
            s.with_just_enough();
        }
    }
    // The sum is START: 0C + 32 is 3E.
    let span = raw_starts(framed(0x0C, 0x32, &[]));
    assert_eq!(span, [START, 0x0C, 0x32, 0, 0, 0, 0, START, END]);
    holding(s, 9, 30, &span);
    assert_eq!(s.acknowledge(30, 9).map(|acks| acks.len()), Ok(9));
}

/// What may stand behind the last span: nothing, noise, END, half a frame, and a START with as many bytes as the limit, and more, which are
/// cleared; behind no span, one, and several, with noise between them.
fn tails(s: &mut Session, limit: usize) {
    let data = framed(0x0C, 0xC4, &[]);
    let ack = framed(0x01, 0, &[]);
    let before: [Vec<u8>; 6] = [
        vec![],
        vec![7, END],
        data.clone(),
        [&ack[..], &[8]].concat(),
        [&[9, 9][..], &data, &[START, END], &ack, &[7], &data].concat(),
        [&data[..], &data, &data].concat(),
    ];
    let store = limit + 48;
    for before in before {
        for tail in [&[][..], &[7, 8], &[END, END], &[START], &data[..5], &[END, START, 1]] {
            holding(s, limit, store, &[&before, tail].concat());
            s.with_just_enough();
            s.push(&data);
            s.with_just_enough();
        }
        for noise in [0, 3] {
            for n in [limit - 1, limit, limit + 1, limit + 5] {
                holding(s, limit, store, &before);
                s.copies(noise, 0x41);
                s.push(&[START]);
                s.copies(n - 1, 0x41);
                s.with_just_enough();
                s.push(&[END]);
                s.with_just_enough();
                let _ = s.acknowledge(store, 0);
            }
        }
    }
}

/// Outputs of every length from none to more than enough, for acks of 9, 10 and 11 bytes in each order.
fn every_room(s: &mut Session) {
    let frames = [0xC2, 0xC6, 0xC4].map(|seq| framed(0x0C, seq, &[]));
    for order in [[0, 1, 2], [0, 2, 1], [1, 0, 2], [1, 2, 0], [2, 0, 1], [2, 1, 0]] {
        let held = [&frames[order[0]][..], &framed(0x01, 1, &[]), &frames[order[1]], &[START, END], &frames[order[2]]].concat();
        holding(s, 40, 50, &held);
        for room in 0..30 {
            assert_eq!(s.acknowledge(50, room), Err(18));
        }
        assert_eq!(s.acknowledge(50 + order[0], 30 + order[1]).map(|acks| acks.len()), Ok(30));
    }
}

/// Frames of 9 bytes whose acks have 11, as many as a store can hold, and other bytes than those of frames before, between and behind.
fn longest_acks(s: &mut Session) {
    let frame = framed(0x0C, 0xC4, &[]);
    assert_eq!(frame.len(), 9);
    for n in 1..=12 {
        for more in 0..=9 {
            for noise in [0x41, START] {
                holding(s, 100, 120, &[frame.repeat(n), vec![noise; more]].concat());
                for room in [11 * n - 1, 11 * n] {
                    let _ = s.acknowledge(120, room);
                }
            }
        }
    }
    holding(s, 8_192, 12_288, &frame.repeat(1_365));
    s.push(&[START, END, 7]);
    for room in [15_014, 15_015] {
        assert_eq!(s.acknowledge(12_288, room).is_ok(), room == 15_015);
    }
}

/// Frames as long as the limit, a byte longer, which is sure to be kept, and longer.
fn long_spans(s: &mut Session) {
    for len in [8_191, 8_192, 8_193, 12_288] {
        for data_type in [0x0C, 0x01] {
            for seq in [1, 0xC5] {
                // Some bytes of the header and the sum may be escaped.
                let payloads = (len - 15..len - 8).map(|n| vec![0x41; n]);
                let mut frames = payloads.map(|payload| (payload.len(), framed(data_type, seq, &payload)));
                let (n, frame) = frames.find(|(_, frame)| frame.len() == len).expect("a payload of some length");
                let at = frame.iter().position(|&b| b == 0x41).expect("a payload");
                s.open(8_192, 12_288);
                s.push(&frame[..at]);
                s.copies(n, 0x41);
                s.push(&frame[at + n..]);
                s.with_just_enough();
                // Its END comes late: behind more than the limit nothing is left to acknowledge.
                s.push(&frame[..at]);
                s.copies(n, 0x41);
                let _ = s.acknowledge(12_300, 11);
                s.push(&frame[at + n..]);
                let _ = s.acknowledge(12_288, 11);
            }
        }
    }
}

/// A scanner with limit 9 that holds these bytes, and these counts.
fn near(s: &mut Session, held: &[u8], counts: Counts) {
    holding(s, 9, 40, held);
    s.recount(counts);
}

/// Every count with room for less than the call adds, for as much, and for more; the buffers too short, just long enough, and longer.
fn full_counts(s: &mut Session) {
    let data = framed(0x0C, 0xC5, &[]);
    let helds: [Vec<u8>; 9] = [
        vec![],
        vec![7],
        vec![START, END],
        data.clone(),
        [&[7, 7, 7][..], &data].concat(),
        [&data[..], &[7, 7, START, 8]].concat(),
        [&framed(0x01, 0, &[])[..], &data, &[7], &data].concat(),
        [&data[..], &[START], &[8; 9]].concat(),
        [vec![START], vec![8; 11]].concat(),
    ];
    for held in helds {
        holding(s, 9, 40, &held);
        let Takes { acks, adds: [_, handed, dropped], .. } = s.takes();
        for handed in rooms(handed) {
            for dropped in rooms(dropped) {
                near(s, &held, with_room(0, handed, dropped));
                s.with_just_enough();
                s.take();
                near(s, &held, with_room(GREATEST, handed, dropped));
                let _ = s.acknowledge(45, acks.len() + 5);
                let _ = s.acknowledge(40, 0);
            }
        }
    }
}

/// Three spans, with other bytes before, between and behind them: either count stops at each byte that the takes would add to it, so that the
/// first, a later or the last take would be refused. Takes alone go on up to there.
fn full_at_each_take(s: &mut Session) {
    let held =
        [&[7][..], &framed(0x0C, 0, &[]), &[7, 7], &[START, 1, END], &[7], &framed(0x0C, 0xC4, &[]), &[7, 7, START, 9]].concat();
    let [handed, dropped] = [9 + 3 + 9, 1 + 2 + 1 + 2];
    for room in 0..=handed + 1 {
        for counts in [with_room(0, room, dropped), with_room(0, room, GREATEST)] {
            near(s, &held, counts);
            assert_eq!(s.acknowledge(40, 20).err(), (room < handed).then_some(27));
            while s.take() {}
            let _ = s.acknowledge(40, 20);
        }
    }
    for room in 0..=dropped + 1 {
        for counts in [with_room(0, handed, room), with_room(0, GREATEST, room)] {
            near(s, &held, counts);
            // 18 comes before 27.
            assert_eq!(s.acknowledge(40, 19), Err(18));
            assert_eq!(s.acknowledge(40, 20).err(), (room < dropped).then_some(27));
            while s.take() {}
            let _ = s.acknowledge(40, 20);
        }
    }
}

/// Each refusal where all higher ones are due too.
fn lower_first(s: &mut Session) {
    let held = framed(0x0C, 0, &[]);
    for counts in [[GREATEST; 3], [0; 3]] {
        for (limit, n, count) in [(8, 16, 17), (65_537, 16, 17), (16, 16, 17), (9, 16, 17), (9, 16, 9), (9, 16, 16)] {
            for work in [0, 15, 16, 17] {
                for room in [0, 8, 9] {
                    holding(s, 9, 16, &held);
                    s.set(limit, count, counts);
                    assert_eq!(n, s.store.len());
                    let expected = match (limit, count) {
                        (8 | 65_537, _) => Some(1),
                        (16, _) => Some(2),
                        (_, 17) => Some(3),
                        _ if work < 16 => Some(6),
                        _ if room < 9 => Some(18),
                        _ => (counts != [0; 3]).then_some(27),
                    };
                    assert_eq!(s.acknowledge(work, room).err(), expected);
                }
            }
        }
    }
}

/// Any state and store, as a caller may give them: the refusals 1 to 3, and a store whose bytes behind the held ones are not zero.
fn states(s: &mut Session) {
    for (limit, n) in [(8, 20), (0, 0), (65_537, 20), (9, 9), (9, 10), (10, 10), (64, 65), (65_536, 100)] {
        s.open(limit, n);
        for count in [0, 1, n.saturating_sub(1), n, n + 1, usize::MAX] {
            s.set(limit, count, [0; 3]);
            let _ = s.acknowledge(n, 30);
        }
    }
    let mut c = Choice::new(310);
    for _ in 0..60 {
        // The store of a refused opening holds what it held before.
        let n = c.between(30, 90);
        s.open(8, n);
        s.set(9, c.below(20), [0; 3]);
        s.push(&framed(c.byte(), c.byte(), &[0x41]));
        s.set(9, c.below(n + 1), [0; 3]);
        let _ = s.acknowledge(n, c.below(30));
        s.set(9, c.below(n + 1), [0; 3]);
        let _ = s.acknowledge(n + 1, 99);
    }
}

/// A work area and an output, most of them long enough.
fn any_station(s: &mut Session, c: &mut Choice) {
    let work = (s.store.len() + c.of(&[0, 0, 0, 1, 9])).saturating_sub(usize::from(c.one_in(20)));
    let need = s.takes().acks.len();
    let room = match c.below(8) {
        0 => need.saturating_sub(1),
        1 => c.below(need + 1),
        2 => s.store.len() / 9 * 11,
        _ => need + c.of(&[0, 0, 0, 1, 30]),
    };
    if s.acknowledge(work, room).is_err() {
        let _ = s.acknowledge(s.store.len(), need);
    }
}

/// Streams in pieces, with a station call after each, or after some.
fn sessions(s: &mut Session, kind: Kind, seed: u64) {
    let mut c = Choice::new(seed);
    let (len, limits) = if kind == Kind::Large { (7_000, [4_096, 8_192]) } else { (2_000, [64, 300]) };
    for (limit, most) in [(limits[0], 40), (limits[0], 64), (limits[1], 200), (limits[1], limits[1])] {
        s.open(limit, limit + 1 + c.below(limit));
        let bytes = stream(kind, c.number(), len);
        let mut rest = &bytes[..];
        while !rest.is_empty() {
            let n = c.between(1, most.min(rest.len()));
            // What does not fit is refused, and is pushed again once there is room.
            let fits = s.store.len() - s.count >= n;
            s.push(&rest[..n]);
            if fits {
                rest = &rest[n..];
            }
            if !fits || c.one_in(2) {
                any_station(s, &mut c);
            }
        }
        any_station(s, &mut c);
    }
}

/// Any calls in any order, with counts that are set now and then.
fn any_calls(s: &mut Session) {
    let mut c = Choice::new(311);
    for limit in [9, 10, 64] {
        for _ in 0..25 {
            s.open(limit, limit + 1 + c.below(60));
            for _ in 0..20 {
                match c.below(5) {
                    0 | 1 => s.push(&framed(c.of(&[0x0C, 0x0E, 0x00, START]), c.between(0xC0, 0xC8) as u8, &[])),
                    2 => {
                        let (data_type, command, entry) = c.of(&HOUSE[7..11]);
                        let mut frame = framed(data_type, c.byte(), &accepted(&mut c, entry, command));
                        frame.truncate(40);
                        if c.one_in(3) {
                            damage(&mut c, &mut frame);
                        }
                        s.push(&frame);
                    }
                    3 => s.push(&framed(0x01, c.byte(), &[])),
                    _ => {
                        let piece: Vec<u8> = (0..c.below(12)).map(|_| c.of(&[START, END, SENTRY, 0, 0x41])).collect();
                        s.push(&piece);
                    }
                }
                match c.below(8) {
                    0 => drop(s.take()),
                    1..5 => any_station(s, &mut c),
                    5 => s.recount([0; 3].map(|_| match c.below(4) {
                        0 => 0,
                        1 => GREATEST,
                        n => GREATEST - c.below(if n == 2 { 20 } else { 100 }) as u64,
                    })),
                    6 => s.recount([0; 3]),
                    _ => {}
                }
            }
        }
    }
}
