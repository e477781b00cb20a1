//! Safe calls of `libffi.a`, the verified MDR frame log. `bindings/c/mdr.h` says what each call leaves in the buffers that it is lent.

pub mod sys;

pub use sys::{Scanner, SupportFunction};

/// Why a call refuses, in the order of the refusal list.
#[non_exhaustive]
#[derive(Clone, Copy, Debug, PartialEq, Eq)]
pub enum Refusal {
    LimitOutOfRange,
    StoreTooShort,
    HeldBeyondStore,
    StoreFull,
    BadPlan,
    WorkTooShort,
    LineTooLong,
    TooShort,
    NoStart,
    NoEnd,
    NoRoom,
    TrailingSentry,
    BadEscapee(u8),
    BodyTooShort,
    BadChecksum { declared: u8, computed: u8 },
    LengthMismatch { declared: usize, actual: usize },
    PayloadTooLong,
    OutputTooShort,
    /// a payload of the right kind and length with other contents; of `message` an empty one
    OtherMessage,
    TooFewRecords,
    NoSuchDevice,
    StepZero,
    NotText,
    NotALine,
    /// fewer than two bytes, or a kind that the decoder does not serve; tried first
    WrongKind,
    /// a served kind whose bytes run out, are too many, or do not match a count; tried next
    WrongLength,
    /// a call that would carry a count of the scanner above `u64::MAX`
    CountFull,
    /// a tax above 1000, or a line count above 4294967295
    BillOutOfRange,
    /// a battery level above 100
    LevelTooHigh,
    /// a status of a later library, which this crate has no name for
    Unlisted(u8),
}

impl Refusal {
    // A value that was not told reads as 0.
    fn of(status: u8, values: &[u64]) -> Refusal {
        let value = |i: usize| values.get(i).copied().unwrap_or(0);
        match status {
            1 => Refusal::LimitOutOfRange,
            2 => Refusal::StoreTooShort,
            3 => Refusal::HeldBeyondStore,
            4 => Refusal::StoreFull,
            5 => Refusal::BadPlan,
            6 => Refusal::WorkTooShort,
            7 => Refusal::LineTooLong,
            8 => Refusal::TooShort,
            9 => Refusal::NoStart,
            10 => Refusal::NoEnd,
            11 => Refusal::NoRoom,
            12 => Refusal::TrailingSentry,
            13 => Refusal::BadEscapee(value(0) as u8),
            14 => Refusal::BodyTooShort,
            15 => Refusal::BadChecksum { declared: value(0) as u8, computed: value(1) as u8 },
            16 => Refusal::LengthMismatch { declared: value(0) as usize, actual: value(1) as usize },
            17 => Refusal::PayloadTooLong,
            18 => Refusal::OutputTooShort,
            19 => Refusal::OtherMessage,
            20 => Refusal::TooFewRecords,
            21 => Refusal::NoSuchDevice,
            22 => Refusal::StepZero,
            23 => Refusal::NotText,
            24 => Refusal::NotALine,
            25 => Refusal::WrongKind,
            26 => Refusal::WrongLength,
            27 => Refusal::CountFull,
            28 => Refusal::BillOutOfRange,
            29 => Refusal::LevelTooHigh,
            other => Refusal::Unlisted(other),
        }
    }

    /// The number in the refusal list.
    pub fn number(self) -> u8 {
        match self {
            Refusal::LimitOutOfRange => 1,
            Refusal::StoreTooShort => 2,
            Refusal::HeldBeyondStore => 3,
            Refusal::StoreFull => 4,
            Refusal::BadPlan => 5,
            Refusal::WorkTooShort => 6,
            Refusal::LineTooLong => 7,
            Refusal::TooShort => 8,
            Refusal::NoStart => 9,
            Refusal::NoEnd => 10,
            Refusal::NoRoom => 11,
            Refusal::TrailingSentry => 12,
            Refusal::BadEscapee(_) => 13,
            Refusal::BodyTooShort => 14,
            Refusal::BadChecksum { .. } => 15,
            Refusal::LengthMismatch { .. } => 16,
            Refusal::PayloadTooLong => 17,
            Refusal::OutputTooShort => 18,
            Refusal::OtherMessage => 19,
            Refusal::TooFewRecords => 20,
            Refusal::NoSuchDevice => 21,
            Refusal::StepZero => 22,
            Refusal::NotText => 23,
            Refusal::NotALine => 24,
            Refusal::WrongKind => 25,
            Refusal::WrongLength => 26,
            Refusal::CountFull => 27,
            Refusal::BillOutOfRange => 28,
            Refusal::LevelTooHigh => 29,
            Refusal::Unlisted(number) => number,
        }
    }
}

impl std::fmt::Display for Refusal {
    fn fmt(&self, f: &mut std::fmt::Formatter<'_>) -> std::fmt::Result {
        match *self {
            Refusal::LimitOutOfRange => write!(f, "the limit is below 9 or above 65536"),
            Refusal::StoreTooShort => write!(f, "the store is not longer than the limit"),
            Refusal::HeldBeyondStore => write!(f, "more bytes are held than the store has"),
            Refusal::StoreFull => write!(f, "the piece does not fit behind the held bytes"),
            Refusal::BadPlan => write!(f, "the plan does not have 512 entries, or one is above 8"),
            Refusal::WorkTooShort => write!(f, "the work area is shorter than the store"),
            Refusal::LineTooLong => write!(f, "the line does not fit the output"),
            Refusal::TooShort => write!(f, "the frame has fewer than 9 bytes"),
            Refusal::NoStart => write!(f, "the frame does not begin with the start byte"),
            Refusal::NoEnd => write!(f, "the frame does not end with the end byte"),
            Refusal::NoRoom => write!(f, "the work area or output is shorter than what is to be unescaped"),
            Refusal::TrailingSentry => write!(f, "the escape byte has nothing behind it"),
            Refusal::BadEscapee(byte) => write!(f, "the escape byte is followed by {byte:02X}"),
            Refusal::BodyTooShort => write!(f, "the body has fewer than 7 bytes"),
            Refusal::BadChecksum { declared, computed } => {
                write!(f, "the frame carries the checksum {declared:02X}, its bytes have {computed:02X}")
            }
            Refusal::LengthMismatch { declared, actual } => {
                write!(f, "the frame declares {declared} payload bytes and has {actual}")
            }
            Refusal::PayloadTooLong => write!(f, "the payload is longer than 4294967295 bytes"),
            Refusal::OutputTooShort => write!(f, "the output is too short"),
            Refusal::OtherMessage => write!(f, "the payload is empty, or its contents are not those of this decoder's messages"),
            Refusal::TooFewRecords => write!(f, "the list has more functions than there are records"),
            Refusal::NoSuchDevice => write!(f, "the index is not below the count of devices"),
            Refusal::StepZero => write!(f, "the level lies within a range whose step is 0"),
            Refusal::NotText => write!(f, "the name or the summary of the setting is not UTF-8"),
            Refusal::NotALine => write!(f, "the bytes are not one line of a log, its newline included"),
            Refusal::WrongKind => write!(f, "the payload has fewer than 2 bytes, or a kind that this decoder does not serve"),
            Refusal::WrongLength => write!(f, "the payload is shorter or longer than its kind and its counts say"),
            Refusal::CountFull => write!(f, "a count of bytes would pass 18446744073709551615"),
            Refusal::BillOutOfRange => write!(f, "the tax is above 1000, or a line count above 4294967295"),
            Refusal::LevelTooHigh => write!(f, "a battery level is above 100"),
            Refusal::Unlisted(number) => write!(f, "refused by {number}, for which there is no name here"),
        }
    }
}

impl std::error::Error for Refusal {}

fn accepted(status: u8, values: &[u64]) -> Result<(), Refusal> {
    match status {
        0 => Ok(()),
        _ => Err(Refusal::of(status, values)),
    }
}

// The values of a call that accepts. Two at least, so that a refusal's values always fit.
fn told<const N: usize>(call: impl FnOnce(*mut u64, usize) -> u8) -> Result<[u64; N], Refusal> {
    const { assert!(N >= 2) };
    let mut values = [0; N];
    let status = call(values.as_mut_ptr(), N);
    accepted(status, &values).map(|()| values)
}

fn byte(n: u64) -> Option<u8> {
    u8::try_from(n).ok()
}

fn flag(n: u64) -> Option<bool> {
    match n {
        0 => Some(false),
        1 => Some(true),
        _ => None,
    }
}

/// A frame's type, by the name of its byte on the wire.
#[derive(Clone, Copy, Debug, PartialEq, Eq)]
pub enum DataType {
    Data,
    Ack,
    DataMcNo1,
    DataIcd,
    DataEv,
    DataMdr,
    DataCommon,
    DataMdrNo2,
    Shot,
    ShotMcNo1,
    ShotIcd,
    ShotEv,
    ShotMdr,
    ShotCommon,
    ShotMdrNo2,
    Unknown(u8),
}

impl DataType {
    pub fn from_wire(byte: u8) -> DataType {
        // SAFETY: a number goes in and a number comes out.
        match unsafe { sys::mdr_data_type(byte) } {
            0 => DataType::Data,
            1 => DataType::Ack,
            2 => DataType::DataMcNo1,
            3 => DataType::DataIcd,
            4 => DataType::DataEv,
            5 => DataType::DataMdr,
            6 => DataType::DataCommon,
            7 => DataType::DataMdrNo2,
            8 => DataType::Shot,
            9 => DataType::ShotMcNo1,
            10 => DataType::ShotIcd,
            11 => DataType::ShotEv,
            12 => DataType::ShotMdr,
            13 => DataType::ShotCommon,
            14 => DataType::ShotMdrNo2,
            _ => DataType::Unknown(byte),
        }
    }

    pub fn to_wire(self) -> u8 {
        match self {
            DataType::Data => 0x00,
            DataType::Ack => 0x01,
            DataType::DataMcNo1 => 0x02,
            DataType::DataIcd => 0x09,
            DataType::DataEv => 0x0A,
            DataType::DataMdr => 0x0C,
            DataType::DataCommon => 0x0D,
            DataType::DataMdrNo2 => 0x0E,
            DataType::Shot => 0x10,
            DataType::ShotMcNo1 => 0x12,
            DataType::ShotIcd => 0x19,
            DataType::ShotEv => 0x1A,
            DataType::ShotMdr => 0x1C,
            DataType::ShotCommon => 0x1D,
            DataType::ShotMdrNo2 => 0x1E,
            DataType::Unknown(byte) => byte,
        }
    }
}

impl From<u8> for DataType {
    fn from(byte: u8) -> DataType {
        DataType::from_wire(byte)
    }
}

// SAFETY, in every call below: each pointer and length are those of one slice or array, which is borrowed for the call, and the library
// keeps none of them. A slice's pointer is never null.

pub fn checksum(bytes: &[u8]) -> u8 {
    unsafe { sys::mdr_checksum(bytes.as_ptr(), bytes.len()) }
}

/// Adds the bytes onto `sum` from the last to the first, for whoever fills a frame from its far end: the end of a body onto 0, then what
/// stands before it onto that sum, in as many parts as come, give [`checksum`] of the whole.
pub fn checksum_from_end(sum: u8, bytes: &[u8]) -> u8 {
    unsafe { sys::mdr_checksum_from_end(sum, bytes.as_ptr(), bytes.len()) }
}

/// How many bytes were written to the front of `out`.
pub fn escape(src: &[u8], out: &mut [u8]) -> Result<usize, Refusal> {
    let v: [u64; 2] = told(|v, n| unsafe { sys::mdr_escape(src.as_ptr(), src.len(), out.as_mut_ptr(), out.len(), v, n) })?;
    Ok(v[0] as usize)
}

/// How many bytes were written to the front of `out`.
pub fn unescape(src: &[u8], out: &mut [u8]) -> Result<usize, Refusal> {
    let v: [u64; 2] = told(|v, n| unsafe { sys::mdr_unescape(src.as_ptr(), src.len(), out.as_mut_ptr(), out.len(), v, n) })?;
    Ok(v[0] as usize)
}

/// How many bytes were written to the front of `out`.
pub fn pack(data_type: DataType, seq: u8, payload: &[u8], out: &mut [u8]) -> Result<usize, Refusal> {
    let v: [u64; 2] = told(|v, n| unsafe {
        sys::mdr_pack(data_type.to_wire(), seq, payload.as_ptr(), payload.len(), out.as_mut_ptr(), out.len(), v, n)
    })?;
    Ok(v[0] as usize)
}

/// The acknowledgement of a frame that came with the sequence `seq`: how many bytes were written to the front of `out`.
pub fn ack(seq: u8, out: &mut [u8]) -> Result<usize, Refusal> {
    let v: [u64; 2] = told(|v, n| unsafe { sys::mdr_ack(seq, out.as_mut_ptr(), out.len(), v, n) })?;
    Ok(v[0] as usize)
}

/// What a frame carried.
#[derive(Clone, Copy, Debug, PartialEq, Eq)]
pub struct Unpacked<'a> {
    pub data_type: DataType,
    pub seq: u8,
    pub payload: &'a [u8],
}

/// Reads one whole frame; the payload is a part of `work`.
pub fn unpack<'a>(frame: &[u8], work: &'a mut [u8]) -> Result<Unpacked<'a>, Refusal> {
    let v: [u64; 3] = told(|v, n| unsafe { sys::mdr_unpack(frame.as_ptr(), frame.len(), work.as_mut_ptr(), work.len(), v, n) })?;
    Ok(Unpacked { data_type: DataType::from_wire(v[0] as u8), seq: v[1] as u8, payload: &work[6..6 + v[2] as usize] })
}

/// A frame's header, and the length of its payload.
#[derive(Clone, Copy, Debug, PartialEq, Eq)]
pub struct Header {
    pub data_type: DataType,
    pub seq: u8,
    pub len: usize,
}

/// Reads one whole frame as `unpack` does, without a work area.
pub fn read_header(frame: &[u8]) -> Result<Header, Refusal> {
    let v: [u64; 3] = told(|v, n| unsafe { sys::mdr_read_header(frame.as_ptr(), frame.len(), v, n) })?;
    Ok(Header { data_type: DataType::from_wire(v[0] as u8), seq: v[1] as u8, len: v[2] as usize })
}

/// A span of the held bytes, markers included.
#[derive(Clone, Copy, Debug, PartialEq, Eq)]
pub struct Span {
    pub at: usize,
    pub len: usize,
}

/// From an accepted opening on, `pushed` is `handed`, `dropped` and `count` added up, after every call, and only `push` is ever refused by
/// `CountFull`; the others are only where the caller has set the counts. A refused call counts nothing, but for the lines that `all_lines`
/// wrote before it was refused.
impl Scanner {
    /// Fills the store with zeros; nothing is held, and nothing counted.
    pub fn open(limit: usize, store: &mut [u8]) -> Result<Scanner, Refusal> {
        let mut scanner = Scanner::default();
        let status = unsafe { sys::mdr_open(&mut scanner, limit, store.as_mut_ptr(), store.len()) };
        accepted(status, &[]).map(|()| scanner)
    }

    /// Counts the piece as pushed. Refused by `StoreFull`, then by `CountFull`; an empty piece by neither.
    pub fn push(&mut self, store: &mut [u8], piece: &[u8]) -> Result<(), Refusal> {
        accepted(unsafe { sys::mdr_push(self, store.as_mut_ptr(), store.len(), piece.as_ptr(), piece.len()) }, &[])
    }

    /// The first span among the held bytes.
    pub fn find(&self, store: &[u8]) -> Result<Option<Span>, Refusal> {
        let v: [u64; 3] = told(|v, n| unsafe { sys::mdr_find(self, store.as_ptr(), store.len(), v, n) })?;
        Ok((v[0] == 1).then_some(Span { at: v[1] as usize, len: v[2] as usize }))
    }

    /// Whether a span went. It is counted as handed over, what else went as dropped.
    pub fn take(&mut self, store: &mut [u8]) -> Result<bool, Refusal> {
        let v: [u64; 2] = told(|v, n| unsafe { sys::mdr_take(self, store.as_mut_ptr(), store.len(), v, n) })?;
        Ok(v[0] == 1)
    }

    /// For spans that were read where they stand, by `seek`: `dropped` is how many bytes stood before and between them, `handed` how many
    /// they have together. As many held bytes go and are counted so; where fewer are held, all of them, the first `dropped` as dropped.
    pub fn skip(&mut self, store: &mut [u8], dropped: usize, handed: usize) -> Result<(), Refusal> {
        accepted(unsafe { sys::mdr_skip(self, store.as_mut_ptr(), store.len(), dropped, handed) }, &[])
    }

    /// The length of the next span's line, written to the front of `out`, or none where no span is held. From an accepted opening
    /// on, an `out` of four times the store's length is never too short. The bytes that go are counted as by `take`.
    pub fn line(&mut self, store: &mut [u8], plan: &[u8], work: &mut [u8], out: &mut [u8]) -> Result<Option<usize>, Refusal> {
        let v: [u64; 2] = told(|v, n| unsafe {
            sys::mdr_line(
                self,
                store.as_mut_ptr(),
                store.len(),
                plan.as_ptr(),
                plan.len(),
                work.as_mut_ptr(),
                work.len(),
                out.as_mut_ptr(),
                out.len(),
                v,
                n,
            )
        })?;
        Ok((v[0] != 0).then_some(v[0] as usize))
    }

    /// The lines of all held spans, written to the front of `out`: their length together, and why no more were written, nothing where no
    /// span is left. The bytes that go are counted as by `take`.
    pub fn all_lines(&mut self, store: &mut [u8], plan: &[u8], work: &mut [u8], out: &mut [u8]) -> (usize, Result<(), Refusal>) {
        let mut v = [0; 1];
        let status = unsafe {
            sys::mdr_all_lines(
                self,
                store.as_mut_ptr(),
                store.len(),
                plan.as_ptr(),
                plan.len(),
                work.as_mut_ptr(),
                work.len(),
                out.as_mut_ptr(),
                out.len(),
                v.as_mut_ptr(),
                v.len(),
            )
        };
        (v[0] as usize, accepted(status, &[]))
    }

    /// Takes all held spans, and writes an ack for each accepted frame that is no ack itself, in their order, to the front of `out`: how many
    /// bytes were written. Refused by `OutputTooShort` where not all of them fit, then by `CountFull`; nothing is then taken or written. An
    /// `out` of 11 bytes for each 9 of the store is never too short. The bytes that go are counted as by `take`, until it finds no span.
    pub fn acknowledge(&mut self, store: &mut [u8], work: &mut [u8], out: &mut [u8]) -> Result<usize, Refusal> {
        let v: [u64; 2] = told(|v, n| unsafe {
            sys::mdr_acknowledge(self, store.as_mut_ptr(), store.len(), work.as_mut_ptr(), work.len(), out.as_mut_ptr(), out.len(), v, n)
        })?;
        Ok(v[0] as usize)
    }
}

/// The first span of these bytes.
pub fn seek(bytes: &[u8]) -> Option<Span> {
    let mut v = [0; 3];
    unsafe { sys::mdr_seek(bytes.as_ptr(), bytes.len(), v.as_mut_ptr(), v.len()) };
    (v[0] == 2).then_some(Span { at: v[1] as usize, len: v[2] as usize })
}

pub const PLAN_LEN: usize = 512;

pub fn house_plan() -> [u8; PLAN_LEN] {
    let mut plan = [0; PLAN_LEN];
    unsafe { sys::mdr_house_plan(plan.as_mut_ptr()) };
    plan
}

pub fn plan_fine(plan: &[u8]) -> bool {
    unsafe { sys::mdr_plan_fine(plan.as_ptr(), plan.len()) }
}

/// A line of a log, by its letter.
#[derive(Clone, Copy, Debug, PartialEq, Eq)]
pub enum LineRead<'a> {
    /// `R`: the number of the refusal
    Unread(u8),
    /// `H`: a command where the length is not 0; `Scanner::line` writes 4294967295 for the length where the plan's entry is 5
    Header { header: Header, command: Option<u8> },
    /// `S`
    Masked(Unpacked<'a>),
    /// `F`
    Full(Unpacked<'a>),
}

/// Reads one line, its newline included. The payload of an `S` or `F` line is a part of `out`; half of the line's length is enough for it.
pub fn read_line<'a>(line: &[u8], out: &'a mut [u8]) -> Result<LineRead<'a>, Refusal> {
    let v: [u64; 5] = told(|v, n| unsafe { sys::mdr_read_line(line.as_ptr(), line.len(), out.as_mut_ptr(), out.len(), v, n) })?;
    let header = Header { data_type: DataType::from_wire(v[1] as u8), seq: v[2] as u8, len: v[3] as usize };
    let unpacked = |out: &'a [u8]| Unpacked { data_type: header.data_type, seq: header.seq, payload: &out[..header.len] };
    Ok(match v[0] as u8 {
        b'R' => LineRead::Unread(v[1] as u8),
        b'H' => LineRead::Header { header, command: byte(v[4]) },
        b'S' => LineRead::Masked(unpacked(out)),
        _ => LineRead::Full(unpacked(out)),
    })
}

/// How many lines of each letter a log has.
#[derive(Clone, Copy, Debug, Default, PartialEq, Eq)]
pub struct LineCounts {
    /// `F`
    pub full: u64,
    /// `S`
    pub masked: u64,
    /// `H`
    pub header: u64,
    /// `R`
    pub unread: u64,
}

/// For a log that comes in pieces of whole lines. A count stays at `u64::MAX`, which `bill` refuses.
impl std::ops::AddAssign for LineCounts {
    fn add_assign(&mut self, more: LineCounts) {
        self.full = self.full.saturating_add(more.full);
        self.masked = self.masked.saturating_add(more.masked);
        self.header = self.header.saturating_add(more.header);
        self.unread = self.unread.saturating_add(more.unread);
    }
}

/// Counts the lines of a log's text, each up to its newline; bytes behind the last newline are a line without its end. Refused by `NotALine`
/// where `read_line` refuses a line so.
pub fn count_text(text: &[u8]) -> Result<LineCounts, Refusal> {
    let v: [u64; 4] = told(|v, n| unsafe { sys::mdr_count_text(text.as_ptr(), text.len(), v, n) })?;
    Ok(LineCounts { full: v[0], masked: v[1], header: v[2], unread: v[3] })
}

/// In cents.
#[derive(Clone, Copy, Debug, PartialEq, Eq)]
pub struct Bill {
    pub net: u64,
    pub total: u64,
}

/// Four cents for an `F` line, two for an `S` line, nothing for `H` and `R`; the tax is per thousand. Refused by `BillOutOfRange`.
pub fn bill(counts: &LineCounts, tax: u64) -> Result<Bill, Refusal> {
    let LineCounts { full, masked, header, unread } = *counts;
    let v: [u64; 2] = told(|v, n| unsafe { sys::mdr_bill(full, masked, header, unread, tax, v, n) })?;
    Ok(Bill { net: v[0], total: v[1] })
}

/// The bill of what `count_text` counts. Refused by `NotALine` as it is, then by `BillOutOfRange`.
pub fn bill_text(text: &[u8], tax: u64) -> Result<Bill, Refusal> {
    let v: [u64; 2] = told(|v, n| unsafe { sys::mdr_bill_text(text.as_ptr(), text.len(), tax, v, n) })?;
    Ok(Bill { net: v[0], total: v[1] })
}

#[derive(Clone, Copy, Debug, PartialEq, Eq)]
pub struct Message {
    pub command: u8,
    pub kind: Option<u8>,
    /// of the whole payload
    pub len: usize,
}

/// Refused by `OtherMessage` where the payload is empty.
pub fn message(payload: &[u8]) -> Result<Message, Refusal> {
    let v: [u64; 3] = told(|v, n| unsafe { sys::mdr_message(payload.as_ptr(), payload.len(), v, n) })?;
    Ok(Message { command: v[0] as u8, kind: byte(v[1]), len: v[2] as usize })
}

#[derive(Clone, Copy, Debug, PartialEq, Eq)]
pub enum Charging {
    No,
    Yes,
    Unknown,
    Charged,
    Other(u8),
}

#[derive(Clone, Copy, Debug, PartialEq, Eq)]
pub struct Cell {
    /// 0 to 100
    pub level: u8,
    pub charging: Charging,
    pub threshold: Option<u8>,
}

#[derive(Clone, Copy, Debug, PartialEq, Eq)]
pub struct Battery {
    pub main: Option<Cell>,
    pub left: Option<Cell>,
    pub right: Option<Cell>,
    pub case: Option<Cell>,
}

fn cell(v: &[u64]) -> Option<Cell> {
    let charging = match v[1] {
        0 => Charging::No,
        1 => Charging::Yes,
        2 => Charging::Unknown,
        3 => Charging::Charged,
        other => Charging::Other(other as u8),
    };
    Some(Cell { level: byte(v[0])?, charging, threshold: byte(v[2]) })
}

/// Refused by `WrongKind`, then by `WrongLength` where the payload does not have the length of its kind, then by `LevelTooHigh` where a level
/// is above 100. Thresholds are not levels.
pub fn battery(payload: &[u8]) -> Result<Battery, Refusal> {
    let v: [u64; 12] = told(|v, n| unsafe { sys::mdr_battery(payload.as_ptr(), payload.len(), v, n) })?;
    Ok(Battery { main: cell(&v[0..3]), left: cell(&v[3..6]), right: cell(&v[6..9]), case: cell(&v[9..12]) })
}

#[derive(Clone, Copy, Debug, PartialEq, Eq)]
pub enum NoiseMode {
    Off,
    Anc,
    Ambient,
}

#[derive(Clone, Copy, Debug, PartialEq, Eq)]
pub struct Noise {
    pub mode: NoiseMode,
    pub mode_byte: Option<u8>,
    pub ambient_level: Option<u8>,
    pub focus_on_voice: Option<bool>,
    pub settled: bool,
    pub adaptive: Option<bool>,
    pub adaptive_sensitivity: Option<u8>,
}

/// Refused by `WrongKind`, then by `WrongLength` where the payload does not have the length of its kind.
pub fn noise(payload: &[u8]) -> Result<Noise, Refusal> {
    let v: [u64; 7] = told(|v, n| unsafe { sys::mdr_noise(payload.as_ptr(), payload.len(), v, n) })?;
    let mode = match v[0] {
        0 => NoiseMode::Off,
        1 => NoiseMode::Anc,
        _ => NoiseMode::Ambient,
    };
    Ok(Noise {
        mode,
        mode_byte: byte(v[1]),
        ambient_level: byte(v[2]),
        focus_on_voice: flag(v[3]),
        settled: v[4] == 1,
        adaptive: flag(v[5]),
        adaptive_sensitivity: byte(v[6]),
    })
}

/// How many of the last noise reports a window has of each mode.
#[derive(Clone, Copy, Debug, Default, PartialEq, Eq)]
pub struct NoiseCounts {
    pub off: u64,
    pub anc: u64,
    pub ambient: u64,
    /// those that hold an ambient level, whatever their mode
    pub level: u64,
}

fn noise_counts([off, anc, ambient, level]: [u64; 4]) -> NoiseCounts {
    NoiseCounts { off, anc, ambient, level }
}

/// A window over the noise reports of a session: the counts are those of the last so many, or of all where fewer have come.
#[derive(Clone, Copy, Debug, PartialEq, Eq)]
pub struct NoiseWindow(sys::NoiseWindow);

impl NoiseWindow {
    /// No report has come. A width of 0 is taken as 1, one above 64 as 64.
    pub fn open(width: u64) -> NoiseWindow {
        let mut window = sys::NoiseWindow::default();
        unsafe { sys::mdr_window_open(&mut window, width) };
        NoiseWindow(window)
    }

    /// The report of a payload comes: the counts with it. Refused as [`noise`] refuses; the window is then as it was.
    pub fn push(&mut self, payload: &[u8]) -> Result<NoiseCounts, Refusal> {
        told(|v, n| unsafe { sys::mdr_window_push(&mut self.0, payload.as_ptr(), payload.len(), v, n) }).map(noise_counts)
    }

    pub fn counts(&self) -> NoiseCounts {
        let mut v = [0; 4];
        unsafe { sys::mdr_window_counts(&self.0, v.as_mut_ptr(), v.len()) };
        noise_counts(v)
    }

    /// How many reports it counts at most: 1 to 64.
    pub fn width(&self) -> u64 {
        self.0.width
    }
}

/// The levels from `min` to `max` by `step`.
#[derive(Clone, Copy, Debug, PartialEq, Eq)]
pub struct AmbientRange {
    pub min: u8,
    pub max: u8,
    pub step: u8,
}

impl AmbientRange {
    /// Whether a headset with this range takes `level`.
    pub fn admits(self, level: i32) -> Result<bool, Refusal> {
        let v: [u64; 2] = told(|v, n| unsafe { sys::mdr_admits(self.min, self.max, self.step, level, v, n) })?;
        Ok(v[0] == 1)
    }

    /// The levels that lie from `low` to `high`, on the same steps. Narrowed again, in either order, it is narrowed once, to the higher low
    /// and the lower high.
    pub fn within(self, low: u8, high: u8) -> Option<AmbientRange> {
        let mut v = [0; 4];
        unsafe { sys::mdr_within(self.min, self.max, self.step, low, high, v.as_mut_ptr(), v.len()) };
        (v[0] == 1).then_some(AmbientRange { min: v[1] as u8, max: v[2] as u8, step: v[3] as u8 })
    }
}

#[derive(Clone, Copy, Debug, PartialEq, Eq)]
pub struct Capability {
    pub kind: u8,
    /// with the voice value; one or two
    pub ranges: [Option<(bool, AmbientRange)>; 2],
}

/// Refused by `WrongKind`, then by `WrongLength` where the bytes do not match the count, then by `OtherMessage` where the count is 0, a
/// voice is above 1 or there twice, a min is above its max, or a step is 0.
pub fn noise_capability(payload: &[u8]) -> Result<Capability, Refusal> {
    let v: [u64; 10] = told(|v, n| unsafe { sys::mdr_noise_capability(payload.as_ptr(), payload.len(), v, n) })?;
    let range = |i: usize| {
        let r = &v[2 + 4 * i..6 + 4 * i];
        ((i as u64) < v[1]).then_some((r[0] == 1, AmbientRange { min: r[1] as u8, max: r[2] as u8, step: r[3] as u8 }))
    };
    Ok(Capability { kind: v[0] as u8, ranges: [range(0), range(1)] })
}

#[derive(Clone, Copy, Debug, PartialEq, Eq)]
pub struct Equalizer<'a> {
    pub preset: u8,
    pub steps: &'a [u8],
}

/// Refused by `WrongKind`, then by `WrongLength` where the bytes do not match the count.
pub fn equalizer(payload: &[u8]) -> Result<Equalizer<'_>, Refusal> {
    let v: [u64; 3] = told(|v, n| unsafe { sys::mdr_equalizer(payload.as_ptr(), payload.len(), v, n) })?;
    Ok(Equalizer { preset: v[0] as u8, steps: &payload[4..4 + v[2] as usize] })
}

#[derive(Clone, Copy, Debug, PartialEq, Eq)]
pub enum EqShape {
    ClearBassAndFive,
    TenBands,
    Unknown,
}

/// The shape of an equalizer with so many steps.
pub fn eq_shape(count: usize) -> EqShape {
    match unsafe { sys::mdr_eq_shape(count) } {
        0 => EqShape::ClearBassAndFive,
        1 => EqShape::TenBands,
        _ => EqShape::Unknown,
    }
}

/// What a step lies above the gain, in an equalizer with so many steps.
pub fn eq_bias(count: usize) -> i32 {
    unsafe { sys::mdr_eq_bias(count) }
}

/// A band's gain, from its step, in an equalizer with so many steps.
pub fn gain(count: usize, step: u8) -> i32 {
    unsafe { sys::mdr_gain(count, step) }
}

/// How many devices are paired. Refused by `WrongKind`, then by `WrongLength` where the bytes do not match the count and the names' lengths.
pub fn paired_devices(payload: &[u8]) -> Result<usize, Refusal> {
    let v: [u64; 2] = told(|v, n| unsafe { sys::mdr_paired_devices(payload.as_ptr(), payload.len(), v, n) })?;
    Ok(v[0] as usize)
}

#[derive(Clone, Copy, Debug, PartialEq, Eq)]
pub struct PairedDevice<'a> {
    pub address: &'a [u8],
    pub status: u8,
    pub details: [u8; 3],
    pub name: &'a [u8],
    /// of the name, as by `count_characters`
    pub characters: Option<u8>,
}

/// Refused as `paired_devices` is, then by `NoSuchDevice` where the index is not below the count.
pub fn paired_device(payload: &[u8], index: usize) -> Result<PairedDevice<'_>, Refusal> {
    let v: [u64; 8] = told(|v, n| unsafe { sys::mdr_paired_device(payload.as_ptr(), payload.len(), index, v, n) })?;
    let part = |at: u64, len: u64| &payload[at as usize..(at + len) as usize];
    Ok(PairedDevice {
        address: part(v[0], 17),
        status: v[1] as u8,
        details: [v[2] as u8, v[3] as u8, v[4] as u8],
        name: part(v[5], v[6]),
        characters: byte(v[7]),
    })
}

/// Makes each address seventeen `*` and each name empty. The masked payload stands at the front and is handed back; what stood behind it
/// becomes zero. A payload that is no list of paired devices stays, and is handed back whole.
#[must_use = "the masked payload is shorter than the slice"]
pub fn mask_paired(payload: &mut [u8]) -> &mut [u8] {
    let len = unsafe { sys::mdr_mask_paired(payload.as_mut_ptr(), payload.len()) };
    &mut payload[..len]
}

/// How many functions the list has. Refused by `WrongKind`, then by `WrongLength` where the bytes do not match the count.
pub fn support_check(payload: &[u8]) -> Result<usize, Refusal> {
    let v: [u64; 2] = told(|v, n| unsafe { sys::mdr_support_check(payload.as_ptr(), payload.len(), v, n) })?;
    Ok(v[0] as usize)
}

#[derive(Clone, Copy, Debug, PartialEq, Eq)]
pub enum Table {
    One,
    Two,
}

/// How many functions were written to the front of `records`. Refused as `support_check` is, then by `TooFewRecords`.
pub fn support_functions(table: Table, payload: &[u8], records: &mut [SupportFunction]) -> Result<usize, Refusal> {
    let table = match table {
        Table::One => 1,
        Table::Two => 2,
    };
    let v: [u64; 2] = told(|v, n| unsafe {
        sys::mdr_support_functions(table, payload.as_ptr(), payload.len(), records.as_mut_ptr(), records.len(), v, n)
    })?;
    Ok(v[0] as usize)
}

#[derive(Clone, Copy, Debug, PartialEq, Eq)]
pub struct GeneralSetting {
    pub slot: u8,
    pub enabled: bool,
}

/// Any kind is a slot. Refused by `WrongKind` where there is none, then by `WrongLength` unless two bytes are behind it, then by
/// `OtherMessage` where these are not 0 and then 0 or 1.
pub fn general_setting(payload: &[u8]) -> Result<GeneralSetting, Refusal> {
    let v: [u64; 2] = told(|v, n| unsafe { sys::mdr_general_setting(payload.as_ptr(), payload.len(), v, n) })?;
    Ok(GeneralSetting { slot: v[0] as u8, enabled: v[1] == 1 })
}

/// What a setting is called.
#[derive(Clone, Copy, Debug, PartialEq, Eq)]
pub struct GeneralSettingInfo<'a> {
    pub slot: u8,
    pub name: &'a str,
    pub summary: &'a str,
    /// of the name, as by `count_characters`
    pub name_characters: u8,
    pub summary_characters: u8,
}

/// Any kind is a slot. Refused by `WrongKind` where there is none, then by `WrongLength` where the bytes do not match the lengths of both
/// texts, then by `OtherMessage` where the first two behind the slot are not 0 and then 0 or 1, then by `NotText`.
pub fn general_setting_info(payload: &[u8]) -> Result<GeneralSettingInfo<'_>, Refusal> {
    let v: [u64; 7] = told(|v, n| unsafe { sys::mdr_general_setting_info(payload.as_ptr(), payload.len(), v, n) })?;
    let part = |at: u64, len: u64| &payload[at as usize..(at + len) as usize];
    let text = |at: u64, len: u64| std::str::from_utf8(part(at, len)).expect("the library accepts only text");
    Ok(GeneralSettingInfo {
        slot: v[0] as u8,
        name: text(v[1], v[2]),
        summary: text(v[3], v[4]),
        name_characters: v[5] as u8,
        summary_characters: v[6] as u8,
    })
}

/// How many characters the bytes are, each a `char`, where they are UTF-8 (RFC 3629). That is not their width on a screen.
pub fn count_characters(bytes: &[u8]) -> Option<usize> {
    let mut v = [0; 2];
    unsafe { sys::mdr_count_characters(bytes.as_ptr(), bytes.len(), v.as_mut_ptr(), v.len()) };
    (v[0] == 1).then_some(v[1] as usize)
}

#[cfg(test)]
mod tests {
    use super::Refusal;

    #[test]
    fn every_status_is_a_refusal() {
        for status in 1..=255 {
            assert_eq!(Refusal::of(status, &[]).number(), status);
        }
        assert_eq!(Refusal::of(16, &[7]), Refusal::LengthMismatch { declared: 7, actual: 0 });
    }
}
