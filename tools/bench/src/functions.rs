//! Each function beside the Rust's. On both sides a call is one that the compiler does not inline, on inputs that it does not know.
use crate::system::processor_time;
use common::acks;
use common::bill::{self, Bill};
use common::choice::Choice;
use common::frames::{self, framed, house_plan};
use common::lines::{self, Line};
use common::log::Log;
use common::streams::{Kind, stream};
use original::mdr::DataType;
use original::mdr::frame::{self, checksum, escape_into, pack, pack_into, unescape, unpack};
use original::mdr::frame_8192;
use original::mdr::payload::{
    Message, NoiseReport, Reading, Table, decode_battery, decode_equalizer, decode_general_setting_info,
    decode_general_setting_param, decode_noise, decode_noise_capability, decode_paired_devices, decode_support_functions,
};
use std::collections::VecDeque;
use std::hint::black_box;

/// How many different inputs each function is timed on.
const INPUTS: usize = 64;
const ROUNDS: usize = 25;
/// Seconds of a round, at least.
const ROUND: f64 = 0.003;

/// Seconds for each call, the median of the rounds; the two sides take turns.
fn time(mut ours: impl FnMut(usize), mut rust: impl FnMut(usize), inputs: usize) -> (f64, f64) {
    let turns_of = |f: &mut dyn FnMut(usize)| {
        let mut turns = 1;
        while round(f, turns, inputs) < ROUND {
            turns *= 2;
        }
        turns
    };
    let (a, b) = (turns_of(&mut ours), turns_of(&mut rust));
    let mut times = (vec![], vec![]);
    for _ in 0..ROUNDS {
        times.0.push(round(&mut ours, a, inputs) / (a * inputs) as f64);
        times.1.push(round(&mut rust, b, inputs) / (b * inputs) as f64);
    }
    (median(times.0), median(times.1))
}

/// Seconds for so many turns over all inputs.
fn round(f: &mut dyn FnMut(usize), turns: usize, inputs: usize) -> f64 {
    let start = processor_time();
    for _ in 0..turns {
        for i in 0..inputs {
            f(i);
        }
    }
    processor_time() - start
}

fn median(mut times: Vec<f64>) -> f64 {
    times.sort_by(f64::total_cmp);
    times[times.len() / 2]
}

fn row(name: &str, (ours, rust): (f64, f64)) {
    println!("| {name} | {:.1} | {:.1} | {:.2} |", ours * 1e9, rust * 1e9, ours / rust);
}

pub fn table() {
    println!(
        "Processor time of a call, median of {ROUNDS} rounds, the two sides taking turns; no buffer is cleared before a call.\n"
    );
    println!("| function | ours, ns | Rust, ns | ratio |");
    println!("|---|---|---|---|");
    for n in [8, 64, 300, 4_000] {
        framing(n);
    }
    decoders();
    for width in [1, 10, 64] {
        windows(width);
    }
    characters();
    for piece in [64, 4_096] {
        scanners(piece);
    }
    stations();
    let log = session_log();
    read_lines(&log);
    bill_texts(&log);
}

// The Rust's functions, each a call that is not inlined.

#[inline(never)]
fn rust_checksum(bytes: &[u8]) -> u8 {
    checksum(bytes)
}

#[inline(never)]
fn rust_checksum_from_end(sum: u8, bytes: &[u8]) -> u8 {
    bytes.iter().rev().fold(sum, |sum, &b| sum.wrapping_add(b))
}

#[inline(never)]
fn rust_escape(src: &[u8], out: &mut Vec<u8>) {
    out.clear();
    escape_into(src, out);
}

#[inline(never)]
fn rust_unescape(src: &[u8]) -> Result<Vec<u8>, frame::FrameError> {
    unescape(src)
}

#[inline(never)]
fn rust_pack(payload: &[u8]) -> Vec<u8> {
    pack(DataType::DataMdr, 1, payload)
}

#[inline(never)]
fn rust_pack_into(payload: &[u8], out: &mut Vec<u8>) {
    out.clear();
    pack_into(DataType::DataMdr, 1, payload, out);
}

#[inline(never)]
fn rust_unpack(bytes: &[u8]) -> Result<frame::Frame, frame::FrameError> {
    unpack(bytes)
}

#[inline(never)]
fn rust_characters(bytes: &[u8]) -> Option<usize> {
    std::str::from_utf8(bytes).ok().map(|text| text.chars().count())
}

fn framing(n: usize) {
    let mut c = Choice::new(n as u64);
    let payloads: Vec<Vec<u8>> = (0..INPUTS).map(|_| c.bytes(n)).collect();
    let escaped: Vec<Vec<u8>> = payloads.iter().map(|p| frames::escaped(p)).map(|f| f[1..f.len() - 1].to_vec()).collect();
    let packed: Vec<Vec<u8>> = payloads.iter().map(|p| framed(0x0C, 1, p)).collect();
    let mut values = [0; 4];
    let mut out = vec![0; 2 * n + 20];
    let mut kept = Vec::new();
    let times = time(
        |i| {
            black_box(ours::checksum(black_box(&payloads[i])));
        },
        |i| {
            black_box(rust_checksum(black_box(&payloads[i])));
        },
        INPUTS,
    );
    row(&format!("checksum, {n}"), times);
    let times = time(
        |i| {
            black_box(ours::checksum_from_end(black_box(i as u8), black_box(&payloads[i])));
        },
        |i| {
            black_box(rust_checksum_from_end(black_box(i as u8), black_box(&payloads[i])));
        },
        INPUTS,
    );
    row(&format!("checksum_from_end, {n}, beside a fold over `iter().rev()`"), times);
    let times = time(
        |i| {
            ours::escape(black_box(&payloads[i]), &mut out, &mut values);
            black_box(&out);
        },
        |i| {
            rust_escape(black_box(&payloads[i]), &mut kept);
            black_box(&kept);
        },
        INPUTS,
    );
    row(&format!("escape, {n}"), times);
    let times = time(
        |i| {
            ours::unescape(black_box(&escaped[i]), &mut out, &mut values);
            black_box(&out);
        },
        |i| drop(black_box(rust_unescape(black_box(&escaped[i])))),
        INPUTS,
    );
    row(&format!("unescape, {n}"), times);
    let times = time(
        |i| {
            ours::pack(0x0C, 1, black_box(&payloads[i]), &mut out, &mut values);
            black_box(&out);
        },
        |i| drop(black_box(rust_pack(black_box(&payloads[i])))),
        INPUTS,
    );
    row(&format!("pack, {n}"), times);
    let times = time(
        |i| {
            ours::pack(0x0C, 1, black_box(&payloads[i]), &mut out, &mut values);
            black_box(&out);
        },
        |i| {
            rust_pack_into(black_box(&payloads[i]), &mut kept);
            black_box(&kept);
        },
        INPUTS,
    );
    row(&format!("pack, {n}, beside `pack_into` with a buffer kept"), times);
    let times = time(
        |i| {
            let room = packed[i].len() - 2;
            ours::unpack(black_box(&packed[i]), &mut out[..room], &mut values);
            black_box(&out);
        },
        |i| drop(black_box(rust_unpack(black_box(&packed[i])))),
        INPUTS,
    );
    row(&format!("unpack, {n}"), times);
    let times = time(
        |i| {
            black_box(ours::read_header(black_box(&packed[i]), &mut values));
            black_box(&values);
        },
        |i| drop(black_box(rust_unpack(black_box(&packed[i])))),
        INPUTS,
    );
    row(&format!("read_header, {n}, beside `unpack`"), times);
    let mut wide = vec![0; 12_288];
    let times = time(
        |i| {
            ours::unpack(black_box(&packed[i]), &mut wide, &mut values);
            black_box(&wide);
        },
        |i| drop(black_box(rust_unpack(black_box(&packed[i])))),
        INPUTS,
    );
    row(&format!("unpack, {n}, work area of 12,288"), times);
}

#[inline(never)]
fn rust_reading(payload: &[u8], decoder: fn(&Message) -> Option<Reading>) -> Option<Reading> {
    decoder(&Message::split(payload)?)
}

fn support_functions(m: &Message) -> Option<Reading> {
    decode_support_functions(Table::One, m)
}

/// A decoder on payloads that it accepts, with room for so many of its numbers.
fn decoder(name: &str, entry: u8, room: usize, ours: fn(&[u8], &mut [u64]) -> u8, rust: fn(&Message) -> Option<Reading>) {
    let mut c = Choice::new(u64::from(entry));
    let payloads: Vec<Vec<u8>> = (0..INPUTS).map(|_| frames::accepted(&mut c, entry, 0)).collect();
    let mut values = [0; 16];
    let times = time(
        |i| {
            black_box(ours(black_box(&payloads[i]), &mut values[..room]));
            black_box(&values);
        },
        |i| drop(black_box(rust_reading(black_box(&payloads[i]), rust))),
        INPUTS,
    );
    row(name, times);
}

fn decoders() {
    decoder("battery", 1, 16, ours::battery, decode_battery);
    decoder("battery, its numbers not asked for", 1, 0, ours::battery, decode_battery);
    decoder("noise", 2, 16, ours::noise, decode_noise);
    decoder("noise, its numbers not asked for", 2, 0, ours::noise, decode_noise);
    decoder("noise capability", 3, 16, ours::noise_capability, decode_noise_capability);
    decoder("equalizer", 4, 16, ours::equalizer, decode_equalizer);
    decoder("paired devices, 0 to 8: the count", 5, 16, ours::paired_devices, decode_paired_devices);
    decoder("paired devices, 0 to 8: the count and each device", 5, 16, every_device, decode_paired_devices);
    decoder("support functions: the count", 6, 16, ours::support_check, support_functions);
    decoder("support functions: the count and each function", 6, 16, every_function, support_functions);
    decoder("general setting", 7, 16, ours::general_setting, decode_general_setting_param);
    decoder("general setting, its numbers not asked for", 7, 0, ours::general_setting, decode_general_setting_param);
    decoder("setting texts", 8, 16, ours::general_setting_info, decode_general_setting_info);
    decoder("setting texts, their numbers not asked for", 8, 0, ours::general_setting_info, decode_general_setting_info);
}

/// The last noise reports, and how many of them are of each mode and hold a level.
struct LastReports {
    width: usize,
    last: VecDeque<NoiseReport>,
    counts: [u64; 4],
}

impl LastReports {
    #[inline(never)]
    fn push(&mut self, payload: &[u8]) -> Option<[u64; 4]> {
        let Some(Reading::Noise(report)) = decode_noise(&Message::split(payload)?) else { return None };
        if self.last.len() == self.width
            && let Some(oldest) = self.last.pop_front()
        {
            self.counts[oldest.mode as usize] -= 1;
            self.counts[3] -= u64::from(oldest.ambient_level.is_some());
        }
        self.counts[report.mode as usize] += 1;
        self.counts[3] += u64::from(report.ambient_level.is_some());
        self.last.push_back(report);
        Some(self.counts)
    }

    #[inline(never)]
    fn counts(&self) -> [u64; 4] {
        self.counts
    }
}

fn windows(width: usize) {
    let mut c = Choice::new(width as u64);
    let payloads: Vec<Vec<u8>> = (0..INPUTS).map(|_| frames::noise(&mut c, 0x67)).collect();
    let mut values = [0; 4];
    let mut window = ours::NoiseWindow::default();
    ours::window_open(&mut window, width as u64);
    let mut rust = LastReports { width, last: VecDeque::with_capacity(width), counts: [0; 4] };
    for payload in payloads.iter().chain(&payloads) {
        assert_eq!(ours::window_push(&mut window, payload, &mut values), 0);
        assert_eq!(rust.push(payload), Some(values));
    }
    let times = time(
        |i| {
            black_box(ours::window_push(&mut window, black_box(&payloads[i]), &mut values));
            black_box(&values);
        },
        |i| {
            black_box(rust.push(black_box(&payloads[i])));
        },
        INPUTS,
    );
    row(&format!("window_push, width {width}, beside `decode_noise` and a `VecDeque`"), times);
    let times = time(
        |_| {
            black_box(ours::window_counts(black_box(&window), &mut values));
            black_box(&values);
        },
        |_| {
            black_box(black_box(&rust).counts());
        },
        INPUTS,
    );
    row(&format!("window_counts, width {width}, beside counts that are kept"), times);
}

/// The characters of names of every kind, some of them no text, then of one kind each.
fn characters() {
    names_row("a name, beside `from_utf8` and `chars().count()`", frames::name);
    for (kind, low, high, alphabet) in [
        ("4 to 14 ASCII letters", 4, 14, "Alice's DESKTOP-4C3D2E Pixel 8"),
        ("200 ASCII letters", 200, 200, "Alice's DESKTOP-4C3D2E Pixel 8"),
        ("8 to 24 Latin letters, some with an accent", 8, 24, "Téléphone de Zoë Núñez, à François"),
        ("8 to 24 Cyrillic letters", 8, 24, "НаушникиАлександры"),
        ("4 to 16 Japanese letters", 4, 16, "山田さんのヘッドホン"),
    ] {
        let alphabet: Vec<char> = alphabet.chars().collect();
        let name = |c: &mut Choice| (0..c.between(low, high)).map(|_| c.of(&alphabet)).collect::<String>().into();
        names_row(&format!("a name of {kind}"), name);
    }
    names_row("8 to 64 random bytes", |c| {
        let n = c.between(8, 64);
        c.bytes(n)
    });
}

fn names_row(kind: &str, name: impl Fn(&mut Choice) -> Vec<u8>) {
    let mut c = Choice::new(8);
    let names: Vec<Vec<u8>> = (0..INPUTS).map(|_| name(&mut c)).collect();
    let mut values = [0; 2];
    for name in &names {
        ours::count_characters(name, &mut values);
        assert_eq!((values[0] == 1).then_some(values[1] as usize), rust_characters(name));
    }
    let times = time(
        |i| {
            black_box(ours::count_characters(black_box(&names[i]), &mut values));
            black_box(&values);
        },
        |i| {
            black_box(rust_characters(black_box(&names[i])));
        },
        INPUTS,
    );
    row(&format!("characters of {kind}"), times);
}

fn every_function(payload: &[u8], values: &mut [u64]) -> u8 {
    let mut records = [ours::SupportFunction { code: 0, priority: 0 }; 255];
    ours::support_functions(1, payload, black_box(&mut records), values)
}

fn every_device(payload: &[u8], values: &mut [u64]) -> u8 {
    let status = ours::paired_devices(payload, values);
    for index in 0..values[0] as usize {
        ours::paired_device(payload, index, values);
        black_box(&mut *values);
    }
    status
}

/// A mixed session of 1 MiB through the scanner, for each span.
fn scanners(piece: usize) {
    let bytes = stream(Kind::Mixed, 2, 1 << 20);
    for (limit, store) in [(8_192, 12_288), (65_536, 69_632)] {
        scanner("each span taken", limit, store, &bytes, piece, taken_spans);
        scanner("spans read in place, then skipped", limit, store, &bytes, piece, skipped_spans);
    }
}

fn scanner(how: &str, limit: usize, store: usize, bytes: &[u8], piece: usize, ours: fn(usize, &mut [u8], &[u8], usize) -> usize) {
    let mut store = vec![0; store];
    let rust = if limit == 8_192 { spans_8192 } else { spans_65536 };
    let spans = rust(bytes, piece);
    assert_eq!(ours(limit, &mut store, bytes, piece), spans);
    let times = time(
        |_| {
            black_box(ours(limit, &mut store, black_box(bytes), piece));
        },
        |_| {
            black_box(rust(black_box(bytes), piece));
        },
        1,
    );
    let name = format!("scanner, {how}; pieces of {piece}, limit {limit}, store of {}: a span", store.len());
    row(&name, (times.0 / spans as f64, times.1 / spans as f64));
}

fn opened(limit: usize, store: &mut [u8]) -> ours::Scanner {
    let mut scanner = ours::Scanner::default();
    assert_eq!(ours::open(&mut scanner, limit, store), 0);
    scanner
}

/// How many spans there are; each is found, then taken.
fn taken_spans(limit: usize, store: &mut [u8], bytes: &[u8], piece: usize) -> usize {
    let mut values = [0; 4];
    let mut spans = 0;
    let mut scanner = opened(limit, store);
    for piece in bytes.chunks(piece) {
        assert_eq!(ours::push(&mut scanner, store, piece), 0);
        loop {
            ours::find(&scanner, store, &mut values);
            let [found, at, len, _] = values.map(|v| v as usize);
            if found == 1 {
                black_box(&store[at..at + len]);
                spans += 1;
            }
            ours::take(&mut scanner, store, &mut values);
            if found == 0 {
                break;
            }
        }
    }
    spans
}

/// The same; spans are found where they stand, and go together when the store has no room for the next piece.
fn skipped_spans(limit: usize, store: &mut [u8], bytes: &[u8], piece: usize) -> usize {
    let mut values = [0; 4];
    let mut spans = 0;
    // of the held bytes that were read
    let (mut dropped, mut handed) = (0, 0);
    let mut scanner = opened(limit, store);
    for piece in bytes.chunks(piece) {
        if store.len() - scanner.count < piece.len() {
            ours::skip(&mut scanner, store, dropped, handed);
            (dropped, handed) = (0, 0);
        }
        assert_eq!(ours::push(&mut scanner, store, piece), 0);
        loop {
            let past = dropped + handed;
            ours::seek(&store[past..scanner.count], &mut values);
            let [seen, at, len, _] = values.map(|v| v as usize);
            if seen < 2 {
                break;
            }
            black_box(&store[past + at..past + at + len]);
            spans += 1;
            dropped += at;
            handed += len;
        }
        // only then may take clear anything
        if scanner.count - dropped - handed > limit {
            ours::skip(&mut scanner, store, dropped, handed);
            ours::take(&mut scanner, store, &mut values);
            (dropped, handed) = (0, 0);
        }
    }
    spans
}

fn spans_8192(bytes: &[u8], piece: usize) -> usize {
    let mut scanner = frame_8192::Scanner::new();
    let mut spans = 0;
    for piece in bytes.chunks(piece) {
        scanner.push(piece);
        while let Some(span) = scanner.next_raw() {
            black_box(&span);
            spans += 1;
        }
    }
    spans
}

fn spans_65536(bytes: &[u8], piece: usize) -> usize {
    let mut scanner = frame::Scanner::new();
    let mut spans = 0;
    for piece in bytes.chunks(piece) {
        scanner.push(piece);
        while let Some(span) = scanner.next_raw() {
            black_box(&span);
            spans += 1;
        }
    }
    spans
}

/// Acks of a mixed session of 1 MiB, a call for each piece, for each span. An output of 15,015 bytes is sure to take the acks; for one of 4,096
/// ours must know their length first.
fn stations() {
    let bytes = stream(Kind::Mixed, 2, 1 << 20);
    let piece = 4_096;
    let spans = spans_8192(&bytes, piece) as f64;
    let mut store = vec![0; 12_288];
    let mut work = vec![0; 12_288];
    let mut kept = Vec::new();
    for room in [15_015, 4_096] {
        let mut out = vec![0; room];
        assert_eq!(our_acks(&mut store, &mut work, &mut out, &bytes, piece), rust_acks(&mut kept, &bytes, piece));
        let times = time(
            |_| {
                black_box(our_acks(&mut store, &mut work, &mut out, black_box(&bytes), piece));
            },
            |_| {
                black_box(rust_acks(&mut kept, black_box(&bytes), piece));
            },
            1,
        );
        let sizes = format!("pieces of {piece}, limit 8192, store of {}, output of {room}", store.len());
        let name = format!("acknowledge, beside `next_raw`, `unpack` and `ack_frame`; {sizes}: a span");
        row(&name, (times.0 / spans, times.1 / spans));
    }
}

/// How many bytes the acks have, and their sum.
fn our_acks(store: &mut [u8], work: &mut [u8], out: &mut [u8], bytes: &[u8], piece: usize) -> (usize, u8) {
    let mut values = [0];
    let (mut len, mut sum) = (0, 0u8);
    let mut scanner = opened(8_192, store);
    for piece in bytes.chunks(piece) {
        assert_eq!(ours::push(&mut scanner, store, piece), 0);
        assert_eq!(ours::acknowledge(&mut scanner, store, work, out, &mut values), 0);
        let n = values[0] as usize;
        sum = sum.wrapping_add(checksum(&out[..n]));
        len += n;
    }
    (len, sum)
}

fn rust_acks(out: &mut Vec<u8>, bytes: &[u8], piece: usize) -> (usize, u8) {
    let (mut len, mut sum) = (0, 0u8);
    let mut scanner = frame_8192::Scanner::new();
    for piece in bytes.chunks(piece) {
        scanner.push(piece);
        out.clear();
        while let Some(span) = scanner.next_raw() {
            if let Some(ack) = acks::of_span(&span) {
                out.extend_from_slice(&ack);
            }
        }
        sum = sum.wrapping_add(checksum(out));
        len += out.len();
    }
    (len, sum)
}

#[inline(never)]
fn rust_read_line(line: &[u8]) -> Option<Line> {
    lines::read(line)
}

/// The log of a mixed session of 1 MiB.
fn session_log() -> Vec<u8> {
    let mut log = Vec::new();
    let mut scanner = frame::Scanner::new();
    scanner.push(&stream(Kind::Mixed, 2, 1 << 20));
    while let Some(span) = scanner.next_raw() {
        Log::default().line(&house_plan(), &span, &mut log);
    }
    log
}

/// The lines of a log, all of them and those of each letter.
fn read_lines(log: &[u8]) {
    let all: Vec<&[u8]> = log.split_inclusive(|&b| b == b'\n').collect();
    lines_row("the lines of a mixed session", &all);
    for letter in [b'F', b'S', b'H', b'R'] {
        let of_it: Vec<&[u8]> = all.iter().filter(|line| line[0] == letter).copied().collect();
        lines_row(&format!("its `{}` lines", char::from(letter)), &of_it);
    }
}

fn lines_row(name: &str, lines: &[&[u8]]) {
    let mut values = [0; 5];
    let mut out = vec![0; 65_536];
    for line in lines {
        let payload: &[u8] = match rust_read_line(line) {
            Some(Line::Masked(ref f) | Line::Full(ref f)) => &f.payload.clone(),
            Some(_) => &[],
            None => panic!("a line of the log is not read"),
        };
        assert_eq!(ours::read_line(line, &mut out, &mut values), 0);
        assert_eq!((values[0], &out[..payload.len()]), (line[0].into(), payload));
    }
    let times = time(
        |i| {
            black_box(ours::read_line(black_box(lines[i]), &mut out, &mut values));
            black_box((&out, &values));
        },
        |i| drop(black_box(rust_read_line(black_box(lines[i])))),
        lines.len(),
    );
    let bytes = lines.iter().map(|line| line.len()).sum::<usize>() / lines.len();
    row(&format!("read_line, {name}, {bytes} bytes each"), times);
}

#[inline(never)]
fn rust_bill_text(text: &[u8], tax: u64) -> Result<Bill, u8> {
    bill::bill_text(text, tax)
}

/// A log, and its lines of each letter, each as one text.
fn bill_texts(log: &[u8]) {
    bill_row("the log of a mixed session", log);
    for letter in [b'F', b'S', b'H', b'R'] {
        let of_it: Vec<&[u8]> = log.split_inclusive(|&b| b == b'\n').filter(|line| line[0] == letter).collect();
        bill_row(&format!("its `{}` lines", char::from(letter)), &of_it.concat());
    }
}

fn bill_row(name: &str, text: &[u8]) {
    let mut values = [0; 2];
    let Bill { net, total } = rust_bill_text(text, 190).expect("a log");
    assert_eq!((ours::bill_text(text, 190, &mut values), values), (0, [net, total]));
    let times = time(
        |_| {
            black_box(ours::bill_text(black_box(text), black_box(190), &mut values));
            black_box(&values);
        },
        |_| {
            let _ = black_box(rust_bill_text(black_box(text), black_box(190)));
        },
        1,
    );
    let lines = text.split_inclusive(|&b| b == b'\n').count();
    let name = format!("bill_text, {name}, {} bytes each: a line", text.len() / lines);
    row(&name, (times.0 / lines as f64, times.1 / lines as f64));
}
