//! Two sessions whose spans have the same public parts: their logs must be the same, whatever else the spans hold, wherever they are cut and
//! whatever was counted before.
use crate::case::{Case, Run, Tally, fewer, fewer_in_frame, hex};
use crate::inputs::content;
use crate::lines::span_of;
use crate::sessions::part;
use common::causes::{BATTERY, level_places};
use common::choice::Choice;
use common::frames::{END, SENTRY, START, body, damage, escaped, framed, house_plan};
use common::log::{Log, reading};

/// A paired device: its status and detail, and what each session has for an address and a name.
#[derive(Clone)]
struct Device {
    kept: [u8; 4],
    addresses: [Vec<u8>; 2],
    names: [Vec<u8>; 2],
}

/// What both sessions have at one place.
#[derive(Clone)]
enum Place {
    /// Frames of paired devices.
    Lists { data_type: u8, seq: u8, command: u8, devices: Vec<Device>, last: u8 },
    /// Other spans of one public part.
    Spans([Vec<u8>; 2]),
}

impl Place {
    fn span(&self, session: usize) -> Vec<u8> {
        match self {
            Place::Lists { data_type, seq, command, devices, last } => {
                framed(*data_type, *seq, &list(*command, devices, *last, session))
            }
            Place::Spans(spans) => spans[session].clone(),
        }
    }

    fn smaller(&self) -> Vec<Place> {
        let mut all = Vec::new();
        match self {
            Place::Lists { data_type, seq, command, devices, last } => {
                let mut with = |devices: Vec<Device>| {
                    all.push(Place::Lists { data_type: *data_type, seq: *seq, command: *command, devices, last: *last });
                };
                for at in 0..devices.len() {
                    with([&devices[..at], &devices[at + 1..]].concat());
                }
                for (at, device) in devices.iter().enumerate() {
                    for session in 0..2 {
                        for name in fewer(&device.names[session]) {
                            let mut devices = devices.clone();
                            devices[at].names[session] = name;
                            with(devices);
                        }
                    }
                }
            }
            Place::Spans([first, second]) => {
                all.extend(fewer_in_frame(first).into_iter().map(|span| Place::Spans([span.clone(), span])));
                all.extend(fewer_in_frame(first).into_iter().map(|span| Place::Spans([span, second.clone()])));
                all.extend(fewer_in_frame(second).into_iter().map(|span| Place::Spans([first.clone(), span])));
            }
        }
        all
    }
}

fn list(command: u8, devices: &[Device], last: u8, session: usize) -> Vec<u8> {
    let mut p = vec![command, 0x02, devices.len() as u8];
    for device in devices {
        let name = &device.names[session];
        p.extend(&device.addresses[session]);
        p.extend(device.kept);
        p.push(name.len() as u8);
        p.extend(name);
    }
    p.push(last);
    p
}

/// What else is a session's own.
#[derive(Clone, Debug)]
struct Way {
    /// Stands before each span.
    noise: Vec<u8>,
    /// The lengths of the pieces, over and over.
    pieces: Vec<usize>,
    /// Whether a call is asked for one line or for all.
    one_by_one: bool,
    /// The counts that the caller sets after the opening, with room for all that comes.
    counts: [u64; 3],
}

#[derive(Clone)]
pub struct Alike {
    plan: Vec<u8>,
    /// Whether the limit is the largest, or the least that is sure to keep every span.
    wide: bool,
    places: Vec<Place>,
    ways: [Way; 2],
}

const LARGEST: usize = 65_536;

impl Alike {
    fn spans(&self, session: usize) -> Vec<Vec<u8>> {
        self.places.iter().map(|place| place.span(session)).collect()
    }

    /// The log that both should have. None where something is not one span, or public parts differ.
    fn expected(&self) -> Option<Vec<u8>> {
        let mut lines = Log::default();
        let [first, second] = [0, 1].map(|session| {
            let mut log = Vec::new();
            for span in self.spans(session) {
                if span_of(&span) != span {
                    return None;
                }
                lines.line(&self.plan, &span, &mut log);
            }
            Some(log)
        });
        first.filter(|first| second.is_some_and(|second| second == *first))
    }

    fn longest(&self) -> usize {
        (0..2).flat_map(|session| self.spans(session)).map(|span| span.len()).max().unwrap_or(0)
    }

    fn limit(&self) -> usize {
        if self.wide { LARGEST } else { self.longest().saturating_sub(1).max(9) }
    }

    /// The log that ours writes, or what is wrong: what it refuses, or what it counts.
    fn log(&self, session: usize) -> Result<Vec<u8>, String> {
        let way = &self.ways[session];
        let spans = self.spans(session);
        let stream: Vec<u8> = spans.iter().flat_map(|span| [&way.noise[..], span].concat()).collect();
        let limit = self.limit();
        let len = limit + way.pieces.iter().max().expect("a piece");
        let (mut store, mut work, mut out) = (vec![0xA5; len], vec![0xA5; len], vec![0; 4 * len]);
        let mut scanner = ours::Scanner::default();
        let call = if way.one_by_one { ours::line } else { ours::all_lines };
        let refused = |what: &str, status: u8| format!("{what} of session {}: refused by {status}", session + 1);

        let status = ours::open(&mut scanner, limit, &mut store);
        if status != 0 {
            return Err(refused("the opening", status));
        }
        let [pushed, handed, dropped] = way.counts;
        scanner = ours::Scanner { pushed, handed, dropped, ..scanner };
        let (mut log, mut rest) = (Vec::new(), &stream[..]);
        for &n in way.pieces.iter().cycle() {
            if rest.is_empty() {
                break;
            }
            let (piece, behind) = rest.split_at(n.min(rest.len()));
            rest = behind;
            let status = ours::push(&mut scanner, &mut store, piece);
            if status != 0 {
                return Err(refused("a push", status));
            }
            loop {
                let mut values = [0];
                match (call(&mut scanner, &mut store, &self.plan, &mut work, &mut out, &mut values), values[0] as usize) {
                    (0, 0) => break,
                    (0 | 7, n @ 1..) => log.extend_from_slice(&out[..n]),
                    (status, _) => return Err(refused("a line call", status)),
                }
            }
        }
        // The last byte is one of a span, so that nothing is held.
        let expected = ours::Scanner {
            limit,
            count: 0,
            pushed: pushed + stream.len() as u64,
            handed: handed + spans.concat().len() as u64,
            dropped: dropped + (way.noise.len() * spans.len()) as u64,
        };
        if scanner != expected {
            return Err(format!("session {} ends with {scanner:?}, expected {expected:?}", session + 1));
        }
        Ok(log)
    }
}

/// The first line in which the logs differ.
fn line_difference(expected: &[u8], ours: &[u8]) -> String {
    let lines = |log: &[u8]| String::from_utf8_lossy(log).lines().map(String::from).collect::<Vec<_>>();
    let (expected, ours) = (lines(expected), lines(ours));
    let at = (0..).find(|&n| expected.get(n) != ours.get(n)).expect("the logs differ");
    let shown = |lines: &[String]| lines.get(at).cloned().unwrap_or("none".into());
    format!("line {}\nexpected: {}\nours:     {}", at + 1, shown(&expected), shown(&ours))
}

impl Case for Alike {
    fn difference(&self, tally: &mut Tally) -> Option<String> {
        let expected = self.expected().expect("spans of the same public parts");
        for line in expected.split_inclusive(|&b| b == b'\n') {
            tally.add("two_sessions", line[0]);
        }
        // Both being what is expected, they are the same.
        (0..2).find_map(|session| match self.log(session) {
            Err(wrong) => Some(wrong),
            Ok(log) => (log != expected).then(|| format!("in session {}, {}", session + 1, line_difference(&expected, &log))),
        })
    }

    fn smaller(&self) -> Vec<Alike> {
        let mut all = Vec::new();
        let mut n = self.places.len();
        while n > 0 {
            for at in (0..self.places.len()).step_by(n) {
                let mut places = self.places.clone();
                places.drain(at..places.len().min(at + n));
                all.push(Alike { places, ..self.clone() });
            }
            n /= 2;
        }
        for (session, way) in self.ways.iter().enumerate() {
            let mut with = |way: Way| {
                let mut ways = self.ways.clone();
                ways[session] = way;
                all.push(Alike { ways, ..self.clone() });
            };
            if !way.noise.is_empty() {
                with(Way { noise: vec![], ..way.clone() });
            }
            if way.pieces != [LARGEST] {
                with(Way { pieces: vec![LARGEST], ..way.clone() });
            }
            if !way.one_by_one {
                with(Way { one_by_one: true, ..way.clone() });
            }
            if way.counts != [0; 3] {
                with(Way { counts: [0; 3], ..way.clone() });
            }
        }
        if !self.wide {
            all.push(Alike { wide: true, ..self.clone() });
        }
        if self.plan != house_plan() {
            all.push(Alike { plan: house_plan(), ..self.clone() });
        }
        for (i, place) in self.places.iter().enumerate() {
            for place in place.smaller() {
                let mut places = self.places.clone();
                places[i] = place;
                all.push(Alike { places, ..self.clone() });
            }
        }
        all.retain(|case| case.expected().is_some());
        all
    }

    fn shown(&self) -> String {
        let mut out = format!("two sessions: limit {}", self.limit());
        if self.plan != house_plan() {
            out += &format!("\n  plan [{}]", hex(&self.plan));
        }
        for (i, way) in self.ways.iter().enumerate() {
            out += &format!("\n  session {}: {way:?}", i + 1);
            for span in self.spans(i) {
                out += &format!("\n    [{}]", hex(&span));
            }
        }
        out
    }
}

fn address(c: &mut Choice) -> Vec<u8> {
    if c.one_in(2) { b"38:18:4C:0A:3D:3E".to_vec() } else { content(c, 17) }
}

/// A name of 0 to 255 bytes.
fn name(c: &mut Choice) -> Vec<u8> {
    let n = match c.below(8) {
        0 | 1 => 0,
        2 => 255,
        3 | 4 => c.below(256),
        _ => c.below(20),
    };
    content(c, n)
}

fn devices(c: &mut Choice) -> Vec<Device> {
    let count = if c.one_in(3) { c.below(21) } else { c.below(4) };
    (0..count)
        .map(|_| Device {
            kept: [c.of(&[0, 1, 2, END, SENTRY, START]), c.byte(), c.byte(), c.byte()],
            addresses: [address(c), address(c)],
            names: [name(c), name(c)],
        })
        .collect()
}

/// A payload of this command that the decoder of paired devices refuses: a list that is cut, longer or damaged, or any bytes.
fn refused(c: &mut Choice, plan: &[u8], data_type: u8, command: u8) -> Vec<u8> {
    loop {
        let devices = devices(c);
        let mut p = list(command, &devices, c.byte(), 0);
        match c.below(4) {
            0 => p.truncate(c.between(1, p.len())),
            1 => p.push(c.byte()),
            2 => damage(c, &mut p),
            _ => {
                let n = c.between(1, 300);
                p = content(c, n);
            }
        }
        if let Some(first) = p.first_mut() {
            *first = command;
            if reading(plan, data_type, &p).is_none() {
                return p;
            }
        }
    }
}

/// A battery of this length, of any of its kinds, with a level above 100.
fn too_high(c: &mut Choice, command: u8, len: usize) -> Vec<u8> {
    let kinds: Vec<u8> = BATTERY.into_iter().filter(|layout| layout.1 == len).map(|layout| layout.0).collect();
    let kind = c.of(&kinds);
    let mut p = content(c, len);
    (p[0], p[1]) = (command, kind);
    p[c.of(level_places(kind))] = c.between(101, 255) as u8;
    p
}

/// A body with a false checksum.
fn false_sum(c: &mut Choice) -> Vec<u8> {
    let n = c.below(40);
    let mut body = body(c.byte(), c.byte(), n as u32, &content(c, n));
    let sum = body.last_mut().expect("a checksum");
    *sum = sum.wrapping_add(c.between(1, 255) as u8);
    escaped(&body)
}

fn place(c: &mut Choice, plan: &[u8], lists: &[(u8, u8)], batteries: &[(u8, u8)]) -> Place {
    let (data_type, command) = c.of(lists);
    let seq = c.byte();
    match c.below(13) {
        0..5 => Place::Lists { data_type, seq, command, devices: devices(c), last: c.byte() },
        5..8 => Place::Spans([0; 2].map(|_| framed(data_type, seq, &refused(c, plan, data_type, command)))),
        8 => Place::Spans([0; 2].map(|_| false_sum(c))),
        9 => {
            // Of no plan: the length shows, and the first byte.
            let (data_type, n) = (c.of(&[0x00, 0x01, 0x0D, 0x1E, SENTRY]), c.below(60));
            Place::Spans([0; 2].map(|_| framed(data_type, seq, &[&[command], &content(c, n)[..]].concat())))
        }
        10 => {
            // The length shows, and the command; the kind does not, nor a level.
            let ((data_type, command), len) = (c.of(batteries), c.of(&BATTERY).1);
            Place::Spans([0; 2].map(|_| framed(data_type, seq, &too_high(c, command, len))))
        }
        _ => {
            let mut span = span_of(&part(c));
            if span.len() > LARGEST + 1 {
                span = vec![START, END];
            }
            Place::Spans([span.clone(), span])
        }
    }
}

fn way(c: &mut Choice, longest: usize) -> Way {
    let noise = (0..c.of(&[0, 0, 1, 5])).map(|_| c.of(&[0x00, END, SENTRY, 0x2C, 0x2E, 0xFF])).collect();
    // Held bytes are searched again after each piece, so that a long span does not come in the smallest.
    let most = c.of(&[1, 9, 50, 300, 2_000, LARGEST]).max(longest / 40);
    let pieces = (0..c.between(1, 6)).map(|_| c.between(1, most)).collect();
    Way { noise, pieces, one_by_one: c.one_in(2), counts: [0; 3].map(|_| if c.one_in(2) { 0 } else { c.number() / 2 }) }
}

pub fn random(run: &mut Run, c: &mut Choice) {
    let mut plan = if c.one_in(3) { (0..512).map(|_| c.below(9) as u8).collect() } else { house_plan() };
    (plan[256 + 0x37], plan[0x23]) = (5, 1);
    let [lists, batteries] = [5, 1].map(|entry| {
        let places = (0..512).filter(|&i| plan[i] == entry);
        places.map(|i| (if i < 256 { 0x0C } else { 0x0E }, i as u8)).collect::<Vec<(u8, u8)>>()
    });
    let places: Vec<Place> = (0..c.below(10)).map(|_| place(c, &plan, &lists, &batteries)).collect();
    let longest = places.iter().map(|p| p.span(0).len().max(p.span(1).len())).max().unwrap_or(0);
    let ways = [way(c, longest), way(c, longest)];
    run.case(&Alike { plan, wide: c.one_in(8), places, ways });
}
