//! A session for `log`: a stream of frames of every kind, and the log of its spans, found by the Rust's `Scanner`.
use crate::payloads::{LETTERS, NAMES, REPAIRED, ROWS, captured, info};
use crate::text::{Choice, rule};
use common::causes::{BATTERY, Decoder, MOST_LEVEL, level_places, read};
use common::frames::{END, HOUSE, SENTRY, START, escaped, every_level, framed, house_plan};
use common::log::{Log, reading};
use common::settings::texts;
use original::mdr::frame::{checksum, escape_into};
use original::mdr::frame_8192::{MAX_BUFFER, Scanner};

/// The stream, and its log.
pub fn list() -> (Vec<u8>, Vec<u8>) {
    let stream = stream();
    assert!(stream.len() <= 900_000);
    let spans = spans([&stream[..]]);
    assert!(spans.iter().all(|s| s.len() <= MAX_BUFFER + 1));
    assert_eq!(spans, self::spans(stream.chunks(61)));
    let log = log(&spans);
    (stream, log)
}

/// The lines of these spans.
fn log(spans: &[Vec<u8>]) -> Vec<u8> {
    let (plan, mut lines, mut log) = (house_plan(), Log::default(), Vec::new());
    for span in spans {
        lines.line(&plan, span, &mut log);
    }
    log
}

/// The spans that the Rust's scanner finds.
fn spans<'a>(pieces: impl IntoIterator<Item = &'a [u8]>) -> Vec<Vec<u8>> {
    let mut scanner = Scanner::new();
    let mut spans = Vec::new();
    for piece in pieces {
        scanner.push(piece);
        while let Some(span) = scanner.next_raw() {
            spans.push(span);
        }
    }
    spans
}

// The stream.

fn stream() -> Vec<u8> {
    let mut s = Stream { bytes: vec![0], parts: vec![], c: Choice::new(23) };
    types_and_sequences(&mut s);
    commands(&mut s);
    planned(&mut s);
    paired(&mut s);
    setting_texts(&mut s);
    longest(&mut s);
    short_spans(&mut s);
    false_frames(&mut s);
    raw_starts(&mut s);
    damaged(&mut s);
    mixed(&mut s);
    every_cut(&mut s);
    name_lengths(&mut s);
    twice(&mut s);
    levels(&mut s);
    // A frame whose end never comes.
    s.bytes.extend([END, START, 0x0C, 0, 0, 0, 0, 4, 0x23, 0]);
    s.bytes
}

struct Stream {
    bytes: Vec<u8>,
    /// What was added, apart from noise.
    parts: Vec<Vec<u8>>,
    c: Choice,
}

impl Stream {
    fn add(&mut self, part: Vec<u8>) {
        self.bytes.extend(&part);
        self.parts.push(part);
    }

    fn frame(&mut self, data_type: u8, payload: &[u8]) {
        let seq = self.c.byte();
        self.add(framed(data_type, seq, payload));
    }

    fn noise(&mut self) {
        let noise = noise(&mut self.c);
        self.bytes.extend(noise);
    }
}

/// Bytes that begin no span.
fn noise(c: &mut Choice) -> Vec<u8> {
    let one = |c: &mut Choice| {
        let any = c.byte();
        let b = c.of(&[0, END, SENTRY, 0x2C, 0x2E, 0xFF, any]);
        if b == START { END } else { b }
    };
    (0..c.below(12)).map(|_| one(c)).collect()
}

/// A body with its checksum, off by so much.
fn body(data_type: u8, seq: u8, declared: u32, payload: &[u8], off: u8) -> Vec<u8> {
    let mut body = vec![data_type, seq];
    body.extend(declared.to_be_bytes());
    body.extend(payload);
    body.push(checksum(&body).wrapping_add(off));
    body
}

fn between_markers(inside: &[u8]) -> Vec<u8> {
    [&[START], inside, &[END]].concat()
}

/// Paired devices with these names; addresses and the rest by choice.
fn devices(c: &mut Choice, command: u8, names: &[Vec<u8>]) -> Vec<u8> {
    let mut p = vec![command, 0x02, names.len() as u8];
    for name in names {
        let plain = c.below(3) > 0;
        p.extend((0..17).map(|i| if plain { b"38:18:4C:0A:3D:3E"[i] } else { c.byte() }));
        p.push(c.of(&[0, 1, 2, END, SENTRY, START]));
        p.extend((0..3).map(|_| c.byte()));
        p.push(name.len() as u8);
        p.extend(name);
    }
    p.push(c.byte());
    p
}

fn name(c: &mut Choice) -> Vec<u8> {
    match c.below(8) {
        0 => vec![],
        1 => b"WH-1000XM5".to_vec(),
        2 => "Téléphone de Zoë".into(),
        3 => "ヘッドホン 🎧".into(),
        4 => vec![0xC3],
        5 => vec![0x41, 0xFF, 0xED, 0xA0, 0x80],
        6 => (0..c.below(20)).map(|_| c.of(&[END, SENTRY, START, 0x2A])).collect(),
        _ => (0..c.below(40)).map(|_| c.byte()).collect(),
    }
}

/// Payloads of a command that its decoder accepts.
fn accepted(c: &mut Choice, data_type: u8, command: u8) -> Vec<Vec<u8>> {
    let mut all: Vec<Vec<u8>> = vec![];
    let with_kinds = |kinds: &[(u8, usize)], c: &mut Choice| -> Vec<Vec<u8>> {
        let rest = |n, c: &mut Choice| (2..n).map(|_| c.of(&[0, 1, 2, 80, END, SENTRY, START, 0xFF])).collect();
        kinds.iter().flat_map(|&(kind, n)| [0; 3].map(|_| [vec![command, kind], rest(n, c)].concat())).collect()
    };
    match (data_type, command) {
        (_, 0x07) => {
            for n in [0, 1, 2, 5, 60, 61, 62, 128, 255] {
                all.push([vec![command, 0, n], rule(2 * u64::from(n), 2 * usize::from(n))].concat());
                all.push([vec![command, 0, n], rule(1, 2 * usize::from(n))].concat());
            }
        }
        (0x0C, 0x23 | 0x25) => {
            all = with_kinds(&BATTERY, c);
            for p in &mut all {
                for &at in level_places(p[1]) {
                    p[at] = p[at].min(MOST_LEVEL);
                }
            }
        }
        (0x0C, 0x57 | 0x59) => {
            for n in [0, 1, 6, 10, 60, 61, 62, 255] {
                all.push([vec![command, 0, c.byte(), n], rule(u64::from(n), usize::from(n))].concat());
            }
        }
        (0x0C, 0x61) => {
            for kind in [0x13, 0x14, 0x15, 0x16, 0x17, 0x18, 0x19, 0x22] {
                all.push(vec![command, kind, 1, kind % 2, 0, 20, 1]);
                all.push(vec![command, kind, 2, 1, SENTRY, SENTRY, START, 0, END, 0xFF, 1]);
            }
        }
        (0x0C, 0x67 | 0x69) => all = with_kinds(&[(0x15, 7), (0x17, 7), (0x19, 9), (0x22, 6), (0x13, 7), (0x01, 5)], c),
        (0x0C, 0xD1) => {
            // None, of every form, of special bytes and a long one, in both places.
            let long = [b't'; 255];
            let texts = [&[], ROWS.as_bytes(), &[END, SENTRY, START], &long];
            for name in texts {
                for summary in texts {
                    all.push(info(c.of(&[0xD1, 0xD2, END, SENTRY, START]), c.of(&[0, 1]), name, summary));
                }
            }
        }
        (0x0C, 0xD7 | 0xD9) => {
            for slot in [0, 1, END, SENTRY, START, 0xD2, 0xFF] {
                all.push(vec![command, slot, 0, slot % 2]);
            }
        }
        (0x0E, 0x37 | 0x39) => {
            for n in [0, 1, 2, 3] {
                let names: Vec<Vec<u8>> = (0..n).map(|_| name(c)).collect();
                all.push(devices(c, command, &names));
            }
        }
        _ => unreachable!("no such entry"),
    }
    let plan = house_plan();
    for p in &all {
        assert!(reading(&plan, data_type, p).is_some());
    }
    all
}

/// Every type and every sequence, with an empty payload, a battery and a paired device.
fn types_and_sequences(s: &mut Stream) {
    let device = devices(&mut s.c, 0x37, &[b"Al".to_vec()]);
    for b in 0..=255 {
        s.add(framed(b, s.bytes.len() as u8, &[]));
        s.add(framed(b, 1, &[0x23, 0x00, 0x50, 0x01]));
        s.add(framed(0x0C, b, &[0x23, 0x00, b, 0x01]));
        s.add(framed(0x0E, b, &device));
        s.noise();
    }
    for b in [0x00, 0x01, 0x02, 0x09, 0x0A, 0x0C, 0x0D, 0x0E, 0x10, 0x12, 0x19, 0x1A, 0x1C, 0x1D, 0x1E, END, SENTRY, START, 0xFF] {
        s.frame(b, &device);
        s.frame(b, &[0x07, 0x00, 0x00]);
    }
}

/// Every command in both tables, alone and with a body that some decoders take.
fn commands(s: &mut Stream) {
    for command in 0..=255 {
        for data_type in [0x0C, 0x0E] {
            s.frame(data_type, &[command]);
            s.frame(data_type, &[command, 0x00, 0x00, 0x00]);
            s.frame(data_type, &[command, 0x02, 0x00, 0x3D]);
        }
    }
}

/// Every entry of the plan: accepted, with a byte less and a byte more, with other bytes, and under another type.
fn planned(s: &mut Stream) {
    for (data_type, command, _) in HOUSE {
        for p in accepted(&mut s.c, data_type, command) {
            s.frame(data_type, &p);
            s.frame(data_type, &p[..p.len() - 1]);
            s.frame(data_type, &[&p[..], &[0]].concat());
            s.frame(data_type ^ 0x02, &p);
            s.frame(data_type | 0x10, &p);
            for at in 1..p.len().min(6) {
                let mut q = p.clone();
                q[at] = s.c.of(&[0, 1, 2, 3, q[at].wrapping_add(1), 0xFF, START]);
                s.frame(data_type, &q);
            }
            s.noise();
        }
    }
}

/// Lists of 0 to 20 devices.
fn paired(s: &mut Stream) {
    for n in 0..=20 {
        for command in [0x37, 0x39] {
            let names: Vec<Vec<u8>> = (0..n).map(|_| name(&mut s.c)).collect();
            let p = devices(&mut s.c, command, &names);
            s.frame(0x0E, &p);
            s.noise();
            s.frame(0x0E, &p[..p.len() - 1]);
            let mut q = p.clone();
            q[2] = if s.c.below(2) == 0 { q[2] + 1 } else { q[2].saturating_sub(1) };
            s.frame(0x0E, &q);
        }
    }
    for n in [1, 60, 61, 62, 128, 254, 255] {
        let names = [vec![b'x'; n], vec![], rule(2 * n as u64, n), rule(1, n)];
        let p = devices(&mut s.c, 0x37, &names);
        s.frame(0x0E, &p);
    }
}

/// What settings are called: text of every form and what is none, in both places, of up to 255 bytes, cut, under every type, and with
/// markers that are not escaped.
fn setting_texts(s: &mut Stream) {
    let mut payloads: Vec<Vec<u8>> = REPAIRED.map(<[u8]>::to_vec).into();
    for name in NAMES {
        payloads.extend(NAMES.map(|summary| info(0xD1, s.c.of(&[0, 1]), name, summary)));
    }
    for letter in LETTERS {
        let text = letter.repeat(255 / letter.len()).into_bytes();
        payloads.push(info(0xD1, 0, &text, &text));
    }
    for n in [1, 60, 61, 62, 128, 254, 255] {
        payloads.push(info(0xD2, 0, &rule(1, n), b"s"));
        payloads.push(info(0xD2, 1, b"n", &rule(3, n)));
        payloads.push(info(0xD3, 0, &rule(5, n), &rule(7, 256 - n)));
        // Text but for its last byte.
        payloads.push(info(0xD3, 1, b"n", &[&rule(9, n - 1)[..], &[0xC2]].concat()));
    }
    for p in captured() {
        payloads.extend((1..=p.len()).map(|n| p[..n].to_vec()));
        payloads.push([&p[..], &[0]].concat());
    }
    let plan = house_plan();
    for p in &payloads {
        assert_eq!(reading(&plan, 0x0C, p).is_some(), texts(p).is_ok());
        s.frame(0x0C, p);
    }
    let marks = info(0xD1, 0, &[START, b'a', SENTRY, b'b', END], &[END, END, SENTRY, SENTRY, START, START]);
    for data_type in 0..=255 {
        s.frame(data_type, &marks);
        s.noise();
    }
    for raw in [END, SENTRY, START] {
        let mut inside = vec![];
        for &b in &body(0x0C, 1, marks.len() as u32, &marks, 0) {
            if b == raw {
                inside.push(b);
            } else {
                escape_into(&[b], &mut inside);
            }
        }
        s.add(between_markers(&inside));
        s.noise();
    }
}

/// Spans of up to the limit and one byte more, with and without an entry.
fn longest(s: &mut Stream) {
    for n in [MAX_BUFFER - 1, MAX_BUFFER, MAX_BUFFER + 1] {
        for data_type in [0x0E, 0x0C] {
            // 29 devices with names of 255 bytes, and one with what is left of the payload.
            let mut names = vec![vec![b'n'; 255]; 29];
            names.push(vec![b'n'; n - 9 - 4 - 29 * 277 - 22]);
            let mut p = vec![0x37, 0x02, 30];
            for name in &names {
                p.extend([b'a'; 17]);
                p.extend([1, 0, 0, 0, name.len() as u8]);
                p.extend(name);
            }
            p.push(7);
            let frame = framed(data_type, 0, &p);
            assert_eq!(frame.len(), n);
            s.add(frame);
        }
    }
}

fn short_spans(s: &mut Stream) {
    for n in 0..=8 {
        for b in [0x00, 0x2C, SENTRY, START, 0x0C] {
            s.add(between_markers(&vec![b; n]));
            s.noise();
        }
    }
    // Escapes that leave a body shorter than it must be.
    for pairs in 1..=7 {
        for more in 0..=7 {
            s.add(between_markers(&[[SENTRY, 0x2D].repeat(pairs), vec![0; more]].concat()));
        }
    }
    s.add(vec![START, SENTRY, 0x2C, 0, 0, 0, 0, 0, END]);
}

/// False checksums and lengths, one and both, and bad escapes.
fn false_frames(s: &mut Stream) {
    let device = devices(&mut s.c, 0x37, &[b"Al".to_vec()]);
    for p in [vec![], vec![0x23, 0x00, 0x50, 0x01], device, vec![0x67, 0x17, 1, 1, 0, 1, 5], rule(2, 300)] {
        let n = p.len() as u32;
        let data_type = if n == 28 { 0x0E } else { 0x0C };
        for off in [0, 1, 0x80, 0xFF] {
            for declared in [n, n + 1, n.wrapping_sub(1), 0, n + 256, n + 65_536, n + (1 << 24), u32::MAX] {
                s.add(escaped(&body(data_type, 1, declared, &p, off)));
            }
        }
    }
    for b in 0..=255 {
        s.add(between_markers(&[0x0C, 0, 0, 0, 0, 4, 0x23, SENTRY, b, 1, 0x84]));
    }
    // A sentry last, alone and after a bad escape.
    s.add(between_markers(&[0x0C, 0, 0, 0, 0, 4, 0x23, 0, 1, 0x84, SENTRY]));
    s.add(between_markers(&[0x0C, 0, 0, 0, 0, SENTRY, 4, 0x23, 0, 1, 0x84, SENTRY]));
    s.add(between_markers(&[0x0C, 0, 0, 0, 0, SENTRY, SENTRY, 0x23, 0, 1, 0x84]));
}

/// STARTs that are not escaped: unpack accepts them, and the frame packed again is another.
fn raw_starts(s: &mut Stream) {
    s.add(vec![START, 0, START, 0, 0, 0, 0, START, END]);
    for _ in 0..60 {
        let (data_type, command, _) = HOUSE[s.c.below(HOUSE.len())];
        let all = accepted(&mut s.c, data_type, command);
        let p = &all[s.c.below(all.len())];
        let seq = s.c.of(&[0, 1, START]);
        let mut inside = vec![];
        for &b in &body(data_type, seq, p.len() as u32, p, 0) {
            if b == START && s.c.below(4) > 0 {
                inside.push(b);
            } else {
                escape_into(&[b], &mut inside);
            }
        }
        s.add(between_markers(&inside));
    }
}

/// Frames with a byte changed, put in or left out, so that some run into the next.
fn damaged(s: &mut Stream) {
    for _ in 0..400 {
        let mut frame = s.parts[s.c.below(s.parts.len())].clone();
        if frame.len() > 400 {
            continue;
        }
        let at = s.c.below(frame.len());
        let any = s.c.byte();
        let b = s.c.of(&[0, END, SENTRY, START, 0x2D, 0xFF, any]);
        match s.c.below(4) {
            0 => frame.insert(at, b),
            1 => drop(frame.remove(at)),
            _ => frame[at] = b,
        }
        s.add(frame);
    }
}

/// Anything of the above in any order, with noise between.
fn mixed(s: &mut Stream) {
    for _ in 0..600 {
        let part = s.parts[s.c.below(s.parts.len())].clone();
        if part.len() <= 2_000 {
            s.bytes.extend(&part);
            s.noise();
        }
    }
}

/// One span of each kind, and all of them over and over, until the replay program's pieces have ended at each place of each.
fn every_cut(s: &mut Stream) {
    let kinds = [
        vec![START, END],
        between_markers(&[0x0C, 0, 0, 0, 0, 0, 0x0C, SENTRY]),
        between_markers(&[0x0C, 0, 0, 0, 0, 0, SENTRY, 0x0C]),
        vec![START, SENTRY, 0x2C, 0, 0, 0, 0, 0, END],
        vec![START, 1, 1, 0, 0, 0, 1, 2, END],
        vec![START, 1, 1, 0, 0, 0, 1, 3, END],
        framed(0x01, 1, &[]),
        framed(0x0D, 0, &[0x23, 0x00, SENTRY, 0x01]),
        vec![0, END, SENTRY],
        framed(0x0C, 0, &[0x23, 0x00, 0x50, 0x01]),
        framed(0x0C, START, &[0x57, 0x00, END, 2, SENTRY, START]),
        between_markers(&[0x0C, START, 0, 0, 0, 4, 0x23, 0, START, 0, 0xAF]),
        framed(0x0E, 1, &[&[0x37, 0x02, 1], &b"AA:BB:CC:DD:EE:F<"[..], &[END, SENTRY, 0, 0, 3], b"A>\xFF", &[0]].concat()),
    ];
    let all = kinds.concat();
    let mut left: Vec<usize> = (0..all.len()).collect();
    // No span is open here.
    s.bytes.push(END);
    while !left.is_empty() {
        let at = s.bytes.len();
        left.retain(|i| !is_cut(at + i));
        s.bytes.extend(&all);
        assert!(s.bytes.len() <= 900_000);
    }
}

/// Names of every length from 0 to 255, each as the first, a middle and the last of 3 to 20 devices; and some lists of none, one and two.
fn name_lengths(s: &mut Stream) {
    for n in 0..=255 {
        let mut names = vec![vec![]; 3 + n % 18];
        let last = names.len() - 1;
        for (at, len) in [(0, n), (1 + n % (last - 1), (n + 85) % 256), (last, (n + 170) % 256)] {
            names[at] = rule(2 * len as u64, len);
        }
        let p = devices(&mut s.c, 0x37, &names);
        s.frame(0x0E, &p);
    }
    for n in [0, 1, 31, 255] {
        for names in [vec![], vec![vec![b'n'; n]], vec![vec![b'n'; n], vec![b'm'; 255 - n]]] {
            let p = devices(&mut s.c, 0x39, &names);
            s.frame(0x0E, &p);
        }
    }
}

/// A session twice. The second time the addresses, names and lengths of names are others, and so are the lengths of refused lists, battery
/// levels above 100, the noise and what is wrong in a damaged frame; the public parts are the same, so that the lines are.
fn twice(s: &mut Stream) {
    let sessions = [61, 62].map(|own| session(&mut Choice::new(60), &mut Choice::new(own)));
    let [first, second] = sessions.each_ref().map(|session| log(&spans([&session[..]])));
    assert!(first == second, "the same lines");
    assert_ne!(sessions[0].len(), sessions[1].len());
    s.bytes.extend(sessions.concat());
}

/// A session: what is public, and what is its own.
fn session(public: &mut Choice, own: &mut Choice) -> Vec<u8> {
    let mut out = vec![END];
    for n in 0..=20 {
        for command in [0x37, 0x39] {
            let seq = public.byte();
            let mut p = vec![command, 0x02, n];
            for _ in 0..n {
                let any = own.byte();
                let len = own.of(&[0, 1, 2, 31, END, SENTRY, START, 255, any]);
                p.extend((0..17).map(|_| own.byte()));
                p.push(public.of(&[0, 1, 2, END, SENTRY, START]));
                p.extend((0..3).map(|_| public.byte()));
                p.push(len);
                p.extend((0..len).map(|_| own.byte()));
            }
            p.push(public.byte());
            let cut = &p[..1 + own.below(p.len() - 1)];
            let few = &cut[..cut.len().min(60)];
            let more = vec![0; 1 + own.below(40)];
            let off = 1 + own.below(255) as u8;
            for span in [
                framed(0x0E, seq, &p),
                // Refused: cut, of another kind, and longer than a list of none.
                framed(0x0E, seq, cut),
                framed(0x0E, seq, &[&[command, 0x01], few].concat()),
                framed(0x0E, seq, &[&[command, 0x02, 0, 0][..], &more].concat()),
                // A false sum, a false length, and a bad escape.
                escaped(&body(0x0E, seq, few.len() as u32, few, off)),
                escaped(&body(0x0E, seq, few.len() as u32 + u32::from(off), few, 0)),
                between_markers(&[&[0x0E; 8][..], &more, &[SENTRY, off & 0x0F]].concat()),
                framed(0x01, seq, &[]),
                framed(0x0C, seq, &[0x23, 0x00, public.byte() % 101, 0x01]),
                // A level that is too high, and what stands beside it, are not public.
                framed(0x0C, seq, &[0x25, 0x0A, 101 + own.below(155) as u8, own.byte(), own.byte()]),
                // Withheld: the length is public, what stands behind the command is not.
                framed(0x0C, seq, &[0xA5, off, own.byte()]),
            ] {
                out.extend(noise(own));
                out.extend(span);
            }
        }
    }
    out
}

/// Batteries of every level in every cell of every layout: to 100 with the whole frame, above it with its head.
fn levels(s: &mut Stream) {
    let plan = house_plan();
    for (level, p) in every_level(0x23) {
        let accepted = level <= 100;
        assert_eq!(reading(&plan, 0x0C, &p).is_some(), accepted);
        assert_eq!(read(Decoder::Battery, &p).err(), (!accepted).then_some(29));
        s.add(framed(0x0C, level % 2, &p));
    }
}

/// Whether a piece ends here: they are of 1, 2, .. 97, 1, 2, .. bytes, so that 97 of them make 4,753.
fn is_cut(at: usize) -> bool {
    (0..97).any(|n| n * (n + 1) / 2 == at % 4_753)
}
