//! Each wrapper once or more, on cases whose answers documents 01 and 02 or the wire format give.

use mdr::*;

const DEVICES: &[u8] = b"\x37\x02\x01AA:BB:CC:DD:EE:FF\x01\x00\x07\x09\x02Al\x00";

#[test]
fn frames() {
    assert_eq!(DataType::from_wire(0x0E), DataType::DataMdrNo2);
    assert_eq!(DataType::from_wire(0x1E), DataType::ShotMdrNo2);
    assert_eq!(DataType::from_wire(0x77), DataType::Unknown(0x77));
    for byte in 0..=255 {
        assert_eq!(DataType::from(byte).to_wire(), byte);
    }
    assert_eq!(checksum(&[]), 0);
    assert_eq!(checksum(&[0xFF, 0x02]), 1);
    assert_eq!(checksum_from_end(0, &[]), 0);
    assert_eq!(checksum_from_end(0xC5, &[]), 0xC5);
    assert_eq!(checksum_from_end(0xFF, &[0x02]), 1);
    let body = [0x0C, 0, 0, 0, 0, 4, 0x23, 0, 0x50, 1];
    for cut in 0..=body.len() {
        let end = checksum_from_end(0, &body[cut..]);
        assert_eq!(checksum_from_end(end, &body[..cut]), 0x84);
    }

    let mut out = [0xEE; 16];
    assert_eq!(ack(0xC5, &mut out), Ok(11));
    assert_eq!(out[..12], [0x3E, 0x01, 0x3D, 0x2C, 0, 0, 0, 0, 0x3D, 0x2D, 0x3C, 0xEE]);
    assert_eq!(ack(0xC5, &mut out[..10]), Err(Refusal::OutputTooShort));

    let mut out = [0xEE; 4];
    assert_eq!(escape(&[0x3C, 0x41], &mut out), Ok(3));
    assert_eq!(out, [0x3D, 0x2C, 0x41, 0xEE]);
    let mut plain = [0xEE; 4];
    assert_eq!(unescape(&out[..3], &mut plain), Ok(2));
    assert_eq!(plain, [0x3C, 0x41, 0xEE, 0xEE]);
    assert_eq!(unescape(&[0x3D, 0x41], &mut plain), Err(Refusal::BadEscapee(0x41)));
    assert_eq!(plain, [0; 4]);

    let mut frame = [0; 32];
    let len = pack(DataType::DataMdr, 1, &[0x23, 0x3E], &mut frame).unwrap();
    assert_eq!(frame[1], 0x0C);
    let mut work = [0xEE; 32];
    let unpacked = Unpacked { data_type: DataType::DataMdr, seq: 1, payload: &[0x23, 0x3E] };
    assert_eq!(unpack(&frame[..len], &mut work), Ok(unpacked));
    let len = pack(DataType::Unknown(0x77), 1, &[], &mut frame).unwrap();
    assert_eq!(unpack(&frame[..len], &mut work).unwrap().data_type, DataType::Unknown(0x77));
    assert_eq!(unpack(&[0x3E, 1, 1, 0, 0, 0, 1, 2, 0x3C], &mut work), Err(Refusal::BadChecksum { declared: 2, computed: 3 }));
    assert_eq!(unpack(&[0x3E, 1, 1, 0, 0, 0, 1, 3, 0x3C], &mut work), Err(Refusal::LengthMismatch { declared: 1, actual: 0 }));
    assert_eq!(unpack(&[], &mut work).unwrap_err().number(), 8);
    assert_eq!(unpack(&[0x3E; 9], &mut work), Err(Refusal::NoEnd));
}

#[test]
fn headers() {
    let mut frame = [0; 32];
    let len = pack(DataType::DataMdr, 1, &[0x23, 0x3E], &mut frame).unwrap();
    assert_eq!(read_header(&frame[..len]), Ok(Header { data_type: DataType::DataMdr, seq: 1, len: 2 }));
    // A raw marker inside is accepted, as by `unpack`.
    let raw = [0x3E, 0x00, 0x3E, 0, 0, 0, 0, 0x3E, 0x3C];
    assert_eq!(read_header(&raw), Ok(Header { data_type: DataType::Data, seq: 0x3E, len: 0 }));
    for (frame, refusal) in [
        (&raw[..8], Refusal::TooShort),
        (&[0; 9], Refusal::NoStart),
        (&[0x3E; 9], Refusal::NoEnd),
        (&[0x3E, 0, 0, 0, 0, 0, 0, 0x3D, 0x3C], Refusal::TrailingSentry),
        (&[0x3E, 0x3D, 0x41, 0, 0, 0, 0, 0, 0x3C], Refusal::BadEscapee(0x41)),
        (&[0x3E, 0x3D, 0x2C, 0, 0, 0, 0, 0, 0x3C], Refusal::BodyTooShort),
        (&[0x3E, 1, 1, 0, 0, 0, 1, 2, 0x3C], Refusal::BadChecksum { declared: 2, computed: 3 }),
        (&[0x3E, 1, 1, 0, 0, 0, 1, 3, 0x3C], Refusal::LengthMismatch { declared: 1, actual: 0 }),
    ] {
        assert_eq!(read_header(frame), Err(refusal));
    }
}

#[test]
fn refusals() {
    let mut work = [0; 32];
    let refusal = unpack(&[0x3E, 1, 1, 0, 0, 0, 1, 2, 0x3C], &mut work).unwrap_err();
    let error: &dyn std::error::Error = &refusal;
    assert_eq!(error.to_string(), "the frame carries the checksum 02, its bytes have 03");
    assert_eq!(refusal.number(), 15);
    assert_eq!(Refusal::NotText.number(), 23);
    assert_eq!(Refusal::NotText.to_string(), "the name or the summary of the setting is not UTF-8");
    assert_eq!(Refusal::BadPlan.to_string(), "the plan does not have 512 entries, or one is above 8");
    assert_eq!(Refusal::NotALine.number(), 24);
    assert_eq!(Refusal::NotALine.to_string(), "the bytes are not one line of a log, its newline included");
    assert_eq!((Refusal::OtherMessage.number(), Refusal::WrongKind.number(), Refusal::WrongLength.number()), (19, 25, 26));
    let kind = "the payload has fewer than 2 bytes, or a kind that this decoder does not serve";
    assert_eq!(battery(&[]).unwrap_err().to_string(), kind);
    let length = "the payload is shorter or longer than its kind and its counts say";
    assert_eq!(battery(&[0x23, 0x00]).unwrap_err().to_string(), length);
    assert_eq!(Refusal::CountFull.number(), 27);
    assert_eq!(Refusal::CountFull.to_string(), "a count of bytes would pass 18446744073709551615");
    assert_eq!(Refusal::BillOutOfRange.number(), 28);
    assert_eq!(Refusal::BillOutOfRange.to_string(), "the tax is above 1000, or a line count above 4294967295");
    assert_eq!(Refusal::LevelTooHigh.number(), 29);
    assert_eq!(Refusal::LevelTooHigh.to_string(), "a battery level is above 100");
    assert_eq!(Refusal::Unlisted(30).number(), 30);
    assert_eq!(Refusal::Unlisted(30).to_string(), "refused by 30, for which there is no name here");
}

#[test]
fn scanner() {
    let mut store = [0xEE; 16];
    assert_eq!(Scanner::open(8, &mut store), Err(Refusal::LimitOutOfRange));
    assert_eq!(store, [0xEE; 16]);
    let mut s = Scanner::open(9, &mut store).unwrap();
    assert_eq!((s.count, store), (0, [0; 16]));
    s.push(&mut store, &[0x00, 0x3E, 0x41]).unwrap();
    assert_eq!(s.find(&store), Ok(None));
    s.push(&mut store, &[0x3C, 0x42]).unwrap();
    assert_eq!(s.find(&store), Ok(Some(Span { at: 1, len: 3 })));
    assert_eq!(s.take(&mut store), Ok(true));
    assert_eq!((s.count, store[0], store[1]), (1, 0x42, 0));
    assert_eq!(s.take(&mut store), Ok(false));
    assert_eq!(s.count, 0);
    assert_eq!(s.push(&mut store, &[0; 17]), Err(Refusal::StoreFull));
    assert_eq!((s.limit, s.count), (9, 0));

    // With a START and no END: the limit stays, and one byte more goes.
    s.push(&mut store, &[0, 0x3E, 1, 1, 1, 1, 1, 1, 1, 1]).unwrap();
    assert_eq!(s.take(&mut store), Ok(false));
    assert_eq!((s.count, store[0]), (9, 0x3E));
    s.push(&mut store, &[1]).unwrap();
    assert_eq!(s.take(&mut store), Ok(false));
    assert_eq!((s.count, store), (0, [0; 16]));

    let beyond = Scanner { limit: 9, count: 17, ..Scanner::default() };
    let mut other = beyond;
    assert_eq!(other.take(&mut store), Err(Refusal::HeldBeyondStore));
    assert_eq!(other.find(&store), Err(Refusal::HeldBeyondStore));
    assert_eq!(other, beyond);
    assert_eq!(Scanner { limit: 8, ..beyond }.skip(&mut store, 1, 0), Err(Refusal::LimitOutOfRange));
}

/// The most that a count can be.
const GREATEST: u64 = u64::MAX;

fn counts(s: &Scanner) -> [u64; 3] {
    [s.pushed, s.handed, s.dropped]
}

/// Each count is the sum of what the calls did; a refused one counts nothing.
#[test]
fn counted() {
    let (mut store, mut work, mut out) = ([0xEE; 16], [0xEE; 16], [0xEE; 64]);
    // Counts of a session before are gone, also where the opening is refused.
    let full = Scanner { limit: 9, count: 3, pushed: GREATEST, handed: GREATEST, dropped: GREATEST };
    for (limit, status) in [(9, 0), (8, 1), (16, 2)] {
        let mut other = full;
        assert_eq!(unsafe { sys::mdr_open(&mut other, limit, store.as_mut_ptr(), store.len()) }, status);
        assert_eq!(other, Scanner { limit, ..Scanner::default() });
    }
    let mut s = Scanner::open(9, &mut store).unwrap();
    assert_eq!(counts(&s), [0; 3]);
    s.push(&mut store, &[]).unwrap();
    s.push(&mut store, &[7, 7, 0x3E, 1, 0x3C, 7, 0x3E, 0x3C, 7]).unwrap();
    assert_eq!(s.push(&mut store, &[0; 8]), Err(Refusal::StoreFull));
    assert_eq!((s.count, counts(&s)), (9, [9, 0, 0]));
    s.find(&store).unwrap();
    assert_eq!(s.line(&mut store, &house_plan(), &mut work, &mut []), Err(Refusal::LineTooLong));
    assert_eq!((s.count, counts(&s)), (9, [9, 0, 0]));
    assert_eq!(s.take(&mut store), Ok(true));
    assert_eq!((s.count, counts(&s)), (4, [9, 3, 2]));
    assert_eq!(s.line(&mut store, &house_plan(), &mut work, &mut out), Ok(Some(5)));
    assert_eq!((s.count, counts(&s)), (1, [9, 5, 3]));
    assert_eq!(s.line(&mut store, &house_plan(), &mut work, &mut out), Ok(None));
    assert_eq!((s.count, counts(&s)), (0, [9, 5, 4]));

    // A START whose END does not come: what stands before it goes, then all that is held.
    s.push(&mut store, &[7, 0x3E, 1, 1, 1, 1, 1, 1, 1, 1]).unwrap();
    assert_eq!(s.take(&mut store), Ok(false));
    assert_eq!((s.count, counts(&s)), (9, [19, 5, 5]));
    s.push(&mut store, &[1]).unwrap();
    assert_eq!(s.take(&mut store), Ok(false));
    assert_eq!((s.count, counts(&s)), (0, [20, 5, 15]));

    // Two spans with a byte before and two between, and one byte that stays.
    s.push(&mut store, &[7, 0x3E, 0x3C, 7, 7, 0x3E, 1, 0x3C, 0x3E]).unwrap();
    s.skip(&mut store, 3, 5).unwrap();
    assert_eq!((s.count, store[0], counts(&s)), (1, 0x3E, [29, 10, 18]));
    s.skip(&mut store, 0, 0).unwrap();
    assert_eq!((s.count, counts(&s)), (1, [29, 10, 18]));
    // No more go than are held, those that are dropped first.
    s.push(&mut store, &[1, 2]).unwrap();
    s.skip(&mut store, 1, usize::MAX).unwrap();
    assert_eq!((s.count, counts(&s)), (0, [31, 12, 19]));
    s.push(&mut store, &[1, 2, 3]).unwrap();
    s.skip(&mut store, usize::MAX, usize::MAX).unwrap();
    assert_eq!((s.count, counts(&s)), (0, [34, 12, 22]));

    s.push(&mut store, &[7, 0x3E, 0x3C, 0x3E, 1, 0x3C, 7, 0x3E]).unwrap();
    assert_eq!(s.all_lines(&mut store, &house_plan(), &mut work, &mut out), (10, Ok(())));
    assert_eq!((s.count, counts(&s)), (1, [42, 17, 24]));
}

/// A scanner of limit 9 that holds these bytes, with so much room in each count, and its store.
fn near(held: &[u8], room: [u64; 3]) -> (Scanner, [u8; 16]) {
    let mut store = [0; 16];
    let mut s = Scanner::open(9, &mut store).unwrap();
    s.push(&mut store, held).unwrap();
    let [pushed, handed, dropped] = room.map(|room| GREATEST - room);
    (Scanner { pushed, handed, dropped, ..s }, store)
}

/// Makes a call in a state with so much room in each count: accepted where it is enough for what the call adds, else refused by 27 with
/// state and store as they were.
fn at_the_end<T: PartialEq + std::fmt::Debug>(
    held: &[u8],
    adds: [u64; 3],
    accepts: T,
    call: impl Fn(&mut Scanner, &mut [u8]) -> Result<T, Refusal>,
) {
    for which in 0..3 {
        for more in [-1, 0, 1] {
            let Some(least) = adds[which].checked_add_signed(more) else { continue };
            let mut room = adds;
            room[which] = least;
            let (before, store_before) = near(held, room);
            let (mut s, mut store) = (before, store_before);
            let answer = call(&mut s, &mut store);
            if more < 0 {
                assert_eq!(answer, Err(Refusal::CountFull));
                assert_eq!((s, store), (before, store_before));
            } else {
                assert_eq!(answer.as_ref(), Ok(&accepts));
                let left: Vec<u64> = room.iter().zip(adds).map(|(room, add)| room - add).collect();
                assert_eq!(counts(&s).map(|count| GREATEST - count)[..], left);
            }
        }
    }
}

#[test]
fn counts_at_the_greatest() {
    at_the_end(&[], [0, 0, 0], (), |s, store| s.push(store, &[]));
    at_the_end(&[1], [3, 0, 0], (), |s, store| s.push(store, &[0x3E, 1, 0x3C]));
    let (noise_and_span, cleared) = ([7, 7, 0x3E, 1, 0x3C, 7], [7, 0x3E, 1, 1, 1, 1, 1, 1, 1, 1, 1]);
    let take = |s: &mut Scanner, store: &mut [u8]| s.take(store);
    at_the_end(&[], [0, 0, 0], false, take);
    at_the_end(&noise_and_span, [0, 3, 2], true, take);
    at_the_end(&[7, 7], [0, 0, 2], false, take);
    at_the_end(&[7, 0x3E, 1], [0, 0, 1], false, take);
    at_the_end(&cleared, [0, 0, 11], false, take);
    at_the_end(&noise_and_span, [0, 3, 2], (), |s, store| s.skip(store, 2, 3));
    at_the_end(&noise_and_span, [0, 1, 5], (), |s, store| s.skip(store, 5, usize::MAX));
    at_the_end(&noise_and_span, [0, 0, 6], (), |s, store| s.skip(store, usize::MAX, 1));

    // The work area and the output stay by 27, and 27 comes before 7 and behind 6.
    let line = |room: usize| {
        move |s: &mut Scanner, store: &mut [u8]| {
            let (mut work, mut out) = ([0xEE; 16], [0xEE; 8]);
            let answer = s.line(store, &house_plan(), &mut work, &mut out[..room]);
            if answer == Err(Refusal::CountFull) {
                assert_eq!((work, out), ([0xEE; 16], [0xEE; 8]));
                assert_eq!(s.line(store, &house_plan(), &mut work[..15], &mut out), Err(Refusal::WorkTooShort));
            } else {
                assert_eq!(work, [0; 16]);
            }
            answer
        }
    };
    at_the_end(&noise_and_span, [0, 3, 2], Some(5), line(5));
    at_the_end(&[7, 7], [0, 0, 2], None, line(0));
    at_the_end(&cleared, [0, 0, 11], None, line(0));
    for (room, refusal) in [([0, 3, 2], Refusal::LineTooLong), ([0, 2, 2], Refusal::CountFull), ([0, 3, 1], Refusal::CountFull)] {
        let (before, mut store) = near(&noise_and_span, room);
        let mut s = before;
        assert_eq!(line(4)(&mut s, &mut store), Err(refusal));
        assert_eq!(s, before);
    }
    // 4 is tried before 27, and a lower one before both.
    let (mut s, mut store) = near(&[], [0; 3]);
    assert_eq!(s.push(&mut store, &[0; 17]), Err(Refusal::StoreFull));
    assert_eq!(s.push(&mut store[..9], &[1]), Err(Refusal::StoreTooShort));
    assert_eq!(s.push(&mut store, &[1]), Err(Refusal::CountFull));
    s.limit = 8;
    assert_eq!(s.push(&mut store, &[1]), Err(Refusal::LimitOutOfRange));
}

/// Lines before the one that is refused by 27 are written, and stay.
#[test]
fn lines_up_to_the_greatest() {
    let held = [7, 0x3E, 0x3C, 7, 7, 0x3E, 1, 0x3C, 7];
    for (room, ready, answer, count, left) in [
        ([0, 5, 4], 10, Ok(()), 0, [0, 0, 0]),
        ([0, 5, 3], 10, Err(Refusal::CountFull), 1, [0, 0, 0]),
        ([0, 4, 4], 5, Err(Refusal::CountFull), 6, [0, 2, 3]),
        ([0, 5, 2], 5, Err(Refusal::CountFull), 6, [0, 3, 1]),
        ([0, 1, 4], 0, Err(Refusal::CountFull), 9, [0, 1, 4]),
        ([0, 5, 0], 0, Err(Refusal::CountFull), 9, [0, 5, 0]),
    ] {
        let (mut s, mut store) = near(&held, room);
        let (mut work, mut out) = ([0xEE; 16], [0xEE; 16]);
        assert_eq!(s.all_lines(&mut store, &house_plan(), &mut work, &mut out), (ready, answer));
        assert_eq!((s.count, counts(&s).map(|count| GREATEST - count)), (count, left));
        assert_eq!(store[..count], held[9 - count..]);
        assert_eq!(work, [if ready == 0 { 0xEE } else { 0 }; 16]);
        assert_eq!(out[..ready], b"R 08\nR 08\n"[..ready]);
        assert!(out[ready..].iter().all(|&b| b == 0xEE));
    }
    // A line without room is refused by 7 where its span could still be counted, else by 27.
    for (room, refusal) in [([0, 5, 4], Refusal::LineTooLong), ([0, 4, 4], Refusal::CountFull)] {
        let (mut s, mut store) = near(&held, room);
        assert_eq!(s.all_lines(&mut store, &house_plan(), &mut [0xEE; 16], &mut [0; 9]), (5, Err(refusal)));
        assert_eq!(s.count, 6);
    }
}

/// No line depends on the counts, and a byte is accepted behind the last one unless the pushed count is full.
#[test]
fn counts_in_no_line() {
    let held = [7, 0x3E, 0x01, 1, 0, 0, 0, 0, 2, 0x3C, 7];
    for room in [[1, 9, 2], [0, GREATEST, GREATEST], [GREATEST, 9, 2]] {
        let (mut s, mut store) = near(&held, room);
        let (mut work, mut out) = ([0; 16], [0; 32]);
        assert_eq!(s.line(&mut store, &house_plan(), &mut work, &mut out), Ok(Some(15)));
        assert_eq!(&out[..15], b"H 010100000000\n");
        assert_eq!(s.line(&mut store, &house_plan(), &mut work, &mut out), Ok(None));
        let one_more = if room[0] == 0 { Err(Refusal::CountFull) } else { Ok(()) };
        assert_eq!(s.push(&mut store, &[7]), one_more);
    }
}

/// A frame with the sequence C5 and no payload: it has 9 bytes, and its ack 11.
const DUE: [u8; 9] = [0x3E, 0x0C, 0xC5, 0, 0, 0, 0, 0xD1, 0x3C];

/// 01's case (b).
const ITS_ACK: [u8; 11] = [0x3E, 0x01, 0x3D, 0x2C, 0, 0, 0, 0, 0x3D, 0x2D, 0x3C];

/// What a call leaves where it acknowledges these bytes, in a store of 80 with limit 70: the acks, the state and the store. State and store
/// are those of takes until one finds no span.
fn acknowledged(held: &[u8]) -> (Vec<u8>, Scanner, [u8; 80]) {
    let (mut store, mut work, mut out) = ([0; 80], [0xEE; 80], [0xEE; 88]);
    let mut s = Scanner::open(70, &mut store).unwrap();
    s.push(&mut store, held).unwrap();
    let (mut taker, mut taken) = (s, store);
    while taker.take(&mut taken).unwrap() {}
    let len = s.acknowledge(&mut store, &mut work, &mut out).unwrap();
    assert_eq!((s, store, work), (taker, taken, [0; 80]));
    assert!(out[len..].iter().all(|&b| b == 0xEE));
    (out[..len].to_vec(), s, store)
}

#[test]
fn acknowledgements() {
    let packed = |data_type, seq, payload: &[u8]| {
        let mut out = [0; 64];
        let len = pack(data_type, seq, payload, &mut out).unwrap();
        out[..len].to_vec()
    };
    let acks = |held: &[u8]| acknowledged(held).0;
    assert_eq!(acks(&DUE), ITS_ACK);
    assert_eq!(acks(&packed(DataType::DataMdr, 0xC5, &[0x23, 0x3E])), ITS_ACK);
    // Every type but an ack's own.
    for byte in 0..=255 {
        let frame = packed(DataType::from_wire(byte), 0xC5, &[0x3C]);
        assert_eq!(acks(&frame), if byte == 0x01 { &[][..] } else { &ITS_ACK }, "{byte:02X}");
    }
    // Each sequence has the ack of the call that makes one.
    for seq in 0..=255 {
        let mut ack_of = [0; 11];
        let len = ack(seq, &mut ack_of).unwrap();
        assert_eq!(acks(&packed(DataType::Shot, seq, &[])), ack_of[..len]);
    }
    // A raw marker inside is accepted, as by `unpack`.
    assert_eq!(acks(&[0x3E, 0x00, 0x3E, 0, 0, 0, 0, 0x3E, 0x3C]), [0x3E, 0x01, 0xC3, 0, 0, 0, 0, 0xC4, 0x3C]);

    // Nothing held, noise, no END, and spans that are refused.
    let mut damaged = DUE;
    damaged[7] = 0xD2;
    for held in [&[][..], &[7, 7], &DUE[..8], &[0x3E, 0x3C], &damaged, &[0x3E, 0x0C, 0xC5, 0, 0, 0, 1, 0xD2, 0x3C]] {
        assert_eq!(acks(held), []);
    }

    // In the order of the spans, with noise, an ack and a damaged frame between, and what stays as after a take.
    let (first, second) = (packed(DataType::DataMdr, 1, &[0x23]), packed(DataType::DataMdrNo2, 0, &[]));
    let held = [&[7, 7], &first[..], &ITS_ACK, &[7], &second, &damaged, &DUE, &[7, 0x3E, 1, 2]].concat();
    let (written, s, store) = acknowledged(&held);
    let others = [0x3E, 0x01, 0, 0, 0, 0, 0, 0x01, 0x3C, 0x3E, 0x01, 1, 0, 0, 0, 0, 0x02, 0x3C];
    assert_eq!(written, [&others[..], &ITS_ACK].concat());
    assert_eq!((s.count, counts(&s), store[..4].to_vec()), (3, [55, 48, 4], vec![0x3E, 1, 2, 0]));

    // Behind the last span a START whose END does not come within the limit goes too.
    let (mut store, mut work, mut out) = ([0; 32], [0xEE; 32], [0xEE; 11]);
    let mut s = Scanner::open(9, &mut store).unwrap();
    s.push(&mut store, &[&DUE[..], &[7, 0x3E, 1, 1, 1, 1, 1, 1, 1, 1, 1]].concat()).unwrap();
    assert_eq!(s.acknowledge(&mut store, &mut work, &mut out), Ok(11));
    assert_eq!((s.count, counts(&s), store, work, out), (0, [20, 9, 11], [0; 32], [0; 32], ITS_ACK));
}

/// 18 leaves all but the work area; 1 to 3 and 6, which come before it, leave that too.
#[test]
fn acknowledgements_without_room() {
    // Seven frames fill the store: an output of 11 bytes for each 9 takes their acks, and one less does not.
    let (mut store, mut out) = ([0; 63], [0xEE; 77]);
    let mut s = Scanner::open(62, &mut store).unwrap();
    s.push(&mut store, &DUE.repeat(7)).unwrap();
    let before = (s, store);
    for room in [0, 1, 66, 76] {
        let mut work = [0xEE; 63];
        assert_eq!(s.acknowledge(&mut store, &mut work, &mut out[..room]), Err(Refusal::OutputTooShort));
        assert_eq!(((s, store), work, out), (before, [0; 63], [0xEE; 77]));
    }
    let mut work = [0xEE; 63];
    for room in [0, 77] {
        for (other, store_len, work_len, refusal) in [
            (Scanner { limit: 8, count: 64, ..s }, 63, 62, Refusal::LimitOutOfRange),
            (Scanner { count: 64, ..s }, 62, 62, Refusal::StoreTooShort),
            (Scanner { count: 64, ..s }, 63, 62, Refusal::HeldBeyondStore),
            (s, 63, 62, Refusal::WorkTooShort),
        ] {
            let mut state = other;
            assert_eq!(state.acknowledge(&mut store[..store_len], &mut work[..work_len], &mut out[..room]), Err(refusal));
            assert_eq!((state, store, work, out), (other, before.1, [0xEE; 63], [0xEE; 77]));
        }
    }
    assert_eq!(s.acknowledge(&mut store, &mut work, &mut out), Ok(77));
    assert_eq!((s.count, store, work), (0, [0; 63], [0; 63]));
    assert_eq!(out[..], ITS_ACK.repeat(7));
    // Where none is due no output is needed.
    s.push(&mut store, &[7, 0x3E, 0x3C, 7]).unwrap();
    assert_eq!(s.acknowledge(&mut store, &mut work, &mut []), Ok(0));
    assert_eq!((s.count, counts(&s)), (0, [67, 65, 2]));
}

/// 27 is what the takes would carry too far together: none is made, and the work area stays. It comes behind 18.
#[test]
fn acknowledgements_at_the_greatest() {
    let station = |written: usize| {
        move |s: &mut Scanner, store: &mut [u8]| {
            let (mut work, mut out) = ([0xEE; 16], [0xEE; 11]);
            let answer = s.acknowledge(store, &mut work, &mut out[..written]);
            if answer == Err(Refusal::CountFull) {
                assert_eq!((work, out), ([0xEE; 16], [0xEE; 11]));
                if written > 0 {
                    assert_eq!(s.acknowledge(store, &mut work, &mut out[..written - 1]), Err(Refusal::OutputTooShort));
                    assert_eq!((work, out), ([0; 16], [0xEE; 11]));
                }
            } else {
                assert_eq!((work, &out[..written]), ([0; 16], &ITS_ACK[..written]));
            }
            answer
        }
    };
    let spans = [&[7], &DUE[..], &[7, 0x3E, 0x3C, 7]].concat();
    at_the_end(&spans, [0, 11, 3], 11, station(11));
    at_the_end(&spans[10..], [0, 2, 2], 0, station(0));
    at_the_end(&[7, 0x3E, 1], [0, 0, 1], 0, station(0));
    at_the_end(&[7, 0x3E, 1, 1, 1, 1, 1, 1, 1, 1, 1], [0, 0, 11], 0, station(0));
    at_the_end(&[], [0, 0, 0], 0, station(0));
}

#[test]
fn lines() {
    let plan = house_plan();
    assert!(plan_fine(&plan));
    assert!(!plan_fine(&plan[..511]));
    assert!(plan_fine(&[8; PLAN_LEN]));
    assert!(!plan_fine(&[9; PLAN_LEN]));
    let (mut store, mut work, mut out) = ([0; 64], [0xEE; 64], [0xEE; 128]);
    let mut s = Scanner::open(60, &mut store).unwrap();
    s.push(&mut store, &[0x3E, 0x3C]).unwrap();
    assert_eq!(s.line(&mut store, &plan, &mut work[..63], &mut out), Err(Refusal::WorkTooShort));
    assert_eq!(s.line(&mut store, &plan, &mut work, &mut out[..4]), Err(Refusal::LineTooLong));
    assert_eq!((s.count, work), (2, [0; 64]));
    assert_eq!(s.line(&mut store, &plan, &mut work, &mut out), Ok(Some(5)));
    assert_eq!((s.count, &out[..6]), (0, &b"R 08\n\xEE"[..]));
    assert_eq!(s.line(&mut store, &plan, &mut work, &mut out), Ok(None));

    // A setting's name and summary: the whole frame where both are text, else its head.
    let mut frame = [0; 64];
    for (payload, line) in [
        (&b"\xD1\xD2\x00\x01\x01A\x00"[..], &b"F 3E0C0000000007D1D20001014100F93C\n"[..]),
        (b"\xD1\xD2\x00\x01\x01\xFF\x00", b"H 0C0000000007D1\n"),
    ] {
        let len = pack(DataType::DataMdr, 0, payload, &mut frame).unwrap();
        s.push(&mut store, &frame[..len]).unwrap();
        assert_eq!(s.line(&mut store, &plan, &mut work, &mut out), Ok(Some(line.len())));
        assert_eq!(&out[..line.len()], line);
    }
}

#[test]
fn lines_read_back() {
    let mut out = [0xEE; 32];
    for n in [8, 12, 13, 14, 15, 16] {
        assert_eq!(read_line(format!("R {n:02}\n").as_bytes(), &mut out), Ok(LineRead::Unread(n)));
    }
    let ack = Header { data_type: DataType::Ack, seq: 1, len: 0 };
    assert_eq!(read_line(b"H 010100000000\n", &mut out), Ok(LineRead::Header { header: ack, command: None }));
    let withheld = Header { data_type: DataType::DataMdr, seq: 0, len: 0x102 };
    assert_eq!(read_line(b"H 0C0000000102A5\n", &mut []), Ok(LineRead::Header { header: withheld, command: Some(0xA5) }));
    let refused = Header { data_type: DataType::DataMdrNo2, seq: 1, len: 4_294_967_295 };
    assert_eq!(read_line(b"H 0E01FFFFFFFF37\n", &mut []), Ok(LineRead::Header { header: refused, command: Some(0x37) }));
    assert_eq!(out, [0xEE; 32]);

    let battery = Unpacked { data_type: DataType::DataMdr, seq: 0, payload: &[0x23, 0x00, 0x50, 0x01] };
    assert_eq!(read_line(b"F 3E0C000000000423005001843C\n", &mut out), Ok(LineRead::Full(battery)));
    assert_eq!(out[..5], [0x23, 0x00, 0x50, 0x01, 0xEE]);
    let stars = b"\x37\x02\x01*****************\x01\x00\x00\x00\x00\x00";
    let devices = Unpacked { data_type: DataType::DataMdrNo2, seq: 1, payload: stars };
    let line = b"S 3E0E010000001A3702012A2A2A2A2A2A2A2A2A2A2A2A2A2A2A2A2A0100000000002E3C\n";
    assert_eq!(read_line(line, &mut out), Ok(LineRead::Masked(devices)));
    assert_eq!((&out[..26], &out[26..]), (&stars[..], &[0xEE; 6][..]));
    let escaped = Unpacked { data_type: DataType::Data, seq: 0x3E, payload: &[] };
    assert_eq!(read_line(b"F 3E003D2E000000003D2E3C\n", &mut []), Ok(LineRead::Full(escaped)));
}

/// `S` lines with the lengths of names, and stars for their bytes, are in logs that were written before.
#[test]
fn lines_written_before() {
    let line = b"S 3E0E010000001C3702012A2A2A2A2A2A2A2A2A2A2A2A2A2A2A2A2A01000000022A2A00863C\n";
    let stars = b"\x37\x02\x01*****************\x01\x00\x00\x00\x02**\x00";
    let mut out = [0xEE; 32];
    let Ok(LineRead::Masked(read)) = read_line(line, &mut out) else { panic!("a masked line") };
    assert_eq!(read, Unpacked { data_type: DataType::DataMdrNo2, seq: 1, payload: stars });
    let mut frame = [0; 64];
    let len = pack(read.data_type, read.seq, read.payload, &mut frame).unwrap();
    let digits: String = frame[..len].iter().map(|b| format!("{b:02X}")).collect();
    assert_eq!(format!("S {digits}\n").as_bytes(), line);
    assert_eq!(out[28..], [0xEE; 4]);
}

#[test]
fn lines_not_read() {
    let mut out = [0xEE; 32];
    for other in [
        &b""[..],
        b"R 08",
        b"R 08\n\n",
        b"R 08\r\n",
        b"R 09\n",
        b"R 11\n",
        b"R 17\n",
        b"R 8\n",
        b"r 08\n",
        b"R08\n",
        b"G 08\n",
        // A command where the length is 0, and none where it is not.
        b"H 01010000000023\n",
        b"H 010100000001\n",
        b"H 0C0000000102a5\n",
        b"F 3E0c000000000423005001843C\n",
        b"F 3E0C000000000423005001853C\n",
        b"F 3E0C000000000423005001843\n",
        // It unpacks, and packs otherwise.
        b"F 3E003E000000003E3C\n",
        b"S 3E3C\n",
    ] {
        assert_eq!(read_line(other, &mut out), Err(Refusal::NotALine), "{:?}", String::from_utf8_lossy(other));
        assert_eq!(read_line(other, &mut []), Err(Refusal::NotALine));
    }
    for letter in ["F", "S"] {
        let line = format!("{letter} 3E0C000000000423005001843C\n");
        assert_eq!(read_line(line.as_bytes(), &mut out[..3]), Err(Refusal::OutputTooShort));
    }
    assert_eq!(out, [0xEE; 32]);
}

/// A line of each letter, the `S` line also as it was written before.
const LOG: &[u8] = b"\
F 3E0C000000000423005001843C
R 08
H 010100000000
S 3E0E010000001A3702012A2A2A2A2A2A2A2A2A2A2A2A2A2A2A2A2A0100000000002E3C
S 3E0E010000001C3702012A2A2A2A2A2A2A2A2A2A2A2A2A2A2A2A2A01000000022A2A00863C
";

fn lines_of(full: u64, masked: u64, header: u64, unread: u64) -> LineCounts {
    LineCounts { full, masked, header, unread }
}

#[test]
fn lines_counted() {
    assert_eq!(count_text(b""), Ok(LineCounts::default()));
    assert_eq!(count_text(LOG), Ok(lines_of(1, 2, 1, 1)));
    assert_eq!(count_text(&LOG.repeat(300)), Ok(lines_of(300, 600, 300, 300)));
    // Pieces of whole lines add up; other pieces are refused.
    for cut in 0..=LOG.len() {
        let (first, rest) = LOG.split_at(cut);
        if cut == 0 || first.ends_with(b"\n") {
            let mut counts = count_text(first).unwrap();
            counts += count_text(rest).unwrap();
            assert_eq!(counts, lines_of(1, 2, 1, 1));
        } else {
            assert_eq!(count_text(first), Err(Refusal::NotALine));
            assert_eq!(count_text(rest), Err(Refusal::NotALine));
        }
    }
    let mut full = lines_of(u64::MAX, 1, 2, 3);
    full += lines_of(1, 1, 1, 1);
    assert_eq!(full, lines_of(u64::MAX, 2, 3, 4));
    assert_eq!(bill(&full, 0), Err(Refusal::BillOutOfRange));
}

#[test]
fn bills() {
    let billed = |net, total| Ok(Bill { net, total });
    for tax in [0, 190, 1_000] {
        assert_eq!(bill(&LineCounts::default(), tax), billed(0, 0));
        assert_eq!(bill(&lines_of(0, 0, 7, 9), tax), billed(0, 0));
    }
    assert_eq!(bill(&lines_of(1, 0, 0, 0), 0), billed(4, 4));
    assert_eq!(bill(&lines_of(0, 1, 0, 0), 0), billed(2, 2));
    assert_eq!(bill(&lines_of(1, 2, 1, 1), 190), billed(8, 10));
    // Just below half a cent, half a cent, and just above it.
    assert_eq!(bill(&lines_of(0, 1, 0, 0), 249), billed(2, 2));
    assert_eq!(bill(&lines_of(0, 1, 0, 0), 250), billed(2, 3));
    assert_eq!(bill(&lines_of(0, 1, 0, 0), 251), billed(2, 3));

    const MOST: u64 = 4_294_967_295;
    assert_eq!(bill(&lines_of(MOST, MOST, MOST, MOST), 1_000), billed(6 * MOST, 12 * MOST));
    assert_eq!(bill(&lines_of(1, 1, 1, 1), 1_001), Err(Refusal::BillOutOfRange));
    assert_eq!(bill(&LineCounts::default(), u64::MAX), Err(Refusal::BillOutOfRange));
    for more in [MOST + 1, u64::MAX] {
        for counts in [lines_of(more, 0, 0, 0), lines_of(0, more, 0, 0), lines_of(0, 0, more, 0), lines_of(0, 0, 0, more)] {
            assert_eq!(bill(&counts, 0), Err(Refusal::BillOutOfRange));
        }
    }
}

#[test]
fn bills_of_texts() {
    assert_eq!(bill_text(b"", 190), Ok(Bill { net: 0, total: 0 }));
    assert_eq!(bill_text(LOG, 190), Ok(Bill { net: 8, total: 10 }));
    assert_eq!(bill_text(LOG, 1_001), Err(Refusal::BillOutOfRange));
    assert_eq!(bill_text(b"", 1_001), Err(Refusal::BillOutOfRange));
    // What is no line, wherever it stands; it is found before the tax is looked at.
    for other in [&b"R 09\n"[..], b"\n", b"R 08\r\n", b"H 0c0000000102A5\n", b"F 3E0C000000000423005001853C\n", b"R 08"] {
        for text in [[other, LOG].concat(), [LOG, other, LOG].concat(), [LOG, other].concat()] {
            for tax in [190, 1_001] {
                assert_eq!(bill_text(&text, tax), Err(Refusal::NotALine));
            }
            assert_eq!(count_text(&text), Err(Refusal::NotALine));
        }
    }
}

#[test]
fn fixed_readings() {
    assert_eq!(message(&[0x23]), Ok(Message { command: 0x23, kind: None, len: 1 }));
    assert_eq!(message(&[0x23, 0x05, 0x00]), Ok(Message { command: 0x23, kind: Some(5), len: 3 }));
    assert_eq!(message(&[]), Err(Refusal::OtherMessage));

    let main = Some(Cell { level: 80, charging: Charging::Yes, threshold: None });
    assert_eq!(battery(&[0x23, 0x00, 0x50, 0x01]), Ok(Battery { main, left: None, right: None, case: None }));
    let b = battery(&[0x23, 0x09, 1, 0, 2, 7, 3, 4]).unwrap();
    assert_eq!(b.left, Some(Cell { level: 1, charging: Charging::No, threshold: Some(3) }));
    assert_eq!(b.right, Some(Cell { level: 2, charging: Charging::Other(7), threshold: Some(4) }));
    assert_eq!((b.main, b.case), (None, None));

    let n = noise(&[0x67, 0x17, 0x01, 0x00, 0x00, 0x01, 0x05]).unwrap();
    assert_eq!((n.mode, n.mode_byte, n.ambient_level), (NoiseMode::Off, Some(0), Some(5)));
    assert_eq!((n.focus_on_voice, n.settled, n.adaptive, n.adaptive_sensitivity), (Some(true), true, None, None));

    assert_eq!(general_setting(&[0xD7, 0xD1, 0x00, 0x00]), Ok(GeneralSetting { slot: 0xD1, enabled: true }));
    assert_eq!(general_setting(&[0xD7, 0xD1, 0x00, 0x01]), Ok(GeneralSetting { slot: 0xD1, enabled: false }));
}

/// A battery of each kind with 0 everywhere, and the places of its levels.
const BATTERIES: [(&[u8], &[usize]); 6] = [
    (&[0x23, 0x00, 0, 0], &[2]),
    (&[0x23, 0x01, 0, 0, 0, 0], &[2, 4]),
    (&[0x23, 0x02, 0, 0], &[2]),
    (&[0x23, 0x08, 0, 0, 0], &[2]),
    (&[0x23, 0x09, 0, 0, 0, 0, 0, 0], &[2, 4]),
    (&[0x23, 0x0A, 0, 0, 0], &[2]),
];

fn levels(b: &Battery) -> Vec<u8> {
    [b.main, b.left, b.right, b.case].iter().flatten().map(|cell| cell.level).collect()
}

#[test]
fn battery_levels() {
    for (plain, places) in BATTERIES {
        for &place in places {
            for level in 0..=255 {
                let mut payload = plain.to_vec();
                payload[place] = level;
                let read = battery(&payload);
                if level > 100 {
                    assert_eq!(read, Err(Refusal::LevelTooHigh), "{payload:02X?}");
                } else {
                    let told: Vec<u8> = places.iter().map(|&at| payload[at]).collect();
                    assert_eq!(levels(&read.unwrap()), told);
                }
                // Another length is found before a level, another kind before both.
                assert_eq!(battery(&payload[..payload.len() - 1]), Err(Refusal::WrongLength));
                assert_eq!(battery(&[&payload[..], &[0]].concat()), Err(Refusal::WrongLength));
                payload[1] = 0x03;
                assert_eq!(battery(&payload), Err(Refusal::WrongKind));
            }
        }
        // Charging bytes and thresholds are no levels.
        for at in (2..plain.len()).filter(|at| !places.contains(at)) {
            for byte in [100, 101, 255] {
                let mut payload = plain.to_vec();
                payload[at] = byte;
                for &place in places {
                    payload[place] = 100;
                }
                assert_eq!(levels(&battery(&payload).unwrap()), vec![100; places.len()]);
            }
        }
    }
    let case = Some(Cell { level: 100, charging: Charging::Other(255), threshold: Some(255) });
    assert_eq!(battery(&[0x25, 0x0A, 100, 255, 255]), Ok(Battery { main: None, left: None, right: None, case }));
    for payload in [[0x23, 0x01, 255, 0, 100, 0], [0x23, 0x01, 100, 0, 255, 0], [0x23, 0x01, 101, 0, 101, 0]] {
        assert_eq!(battery(&payload).unwrap_err().number(), 29);
    }
}

/// A battery with a level above 100 leaves its head in the log. A stored line that has it whole reads back, and its payload is refused.
#[test]
fn high_levels_in_logs() {
    assert_eq!(log_of(&[(DataType::DataMdr, &[0x23, 0x00, 100, 1])], 5), "F 3E0C010000000423006401993C\n");
    for (plain, places) in BATTERIES {
        for &place in places {
            for level in [101, 255] {
                let mut payload = plain.to_vec();
                payload[place] = level;
                let head = format!("H 0C01{:08X}23\n", payload.len());
                assert_eq!(log_of(&[(DataType::DataMdr, &payload)], 5), head);
            }
        }
    }
    let stored = b"F 3E0C00000000042300FF01333C\n";
    let payload: &[u8] = &[0x23, 0x00, 0xFF, 0x01];
    let mut out = [0xEE; 8];
    let frame = Unpacked { data_type: DataType::DataMdr, seq: 0, payload };
    assert_eq!(read_line(stored, &mut out), Ok(LineRead::Full(frame)));
    assert_eq!(out, [0x23, 0x00, 0xFF, 0x01, 0xEE, 0xEE, 0xEE, 0xEE]);
    assert_eq!(battery(&out[..4]), Err(Refusal::LevelTooHigh));
    assert_eq!(count_text(stored), Ok(lines_of(1, 0, 0, 0)));
    assert_eq!(bill_text(stored, 0), Ok(Bill { net: 4, total: 4 }));
    let mut packed = [0; 16];
    let len = pack(DataType::DataMdr, 0, payload, &mut packed).unwrap();
    let digits: String = packed[..len].iter().map(|b| format!("{b:02X}")).collect();
    assert_eq!(format!("F {digits}\n").as_bytes(), stored);
}

/// Reports of each mode, with a level and without; two payloads are none.
const REPORTS: [&[u8]; 7] = [
    &[0x67, 0x15, 0x01, 0x00, 0x00, 0x00, 0x05],
    &[0x67, 0x01, 0x01, 0x01, 0x00],
    &[0x67, 0x14, 0x01, 0x01, 0x00],
    &[0x69, 0x17, 0x01, 0x01, 0x00, 0x00, 0x06],
    &[0x67, 0x01, 0x01, 0x01, 0x01],
    &[0x69, 0x22, 0x01, 0x01, 0x00],
    &[0x69, 0x22, 0x01, 0x01, 0x00, 0x00],
];

/// The last of these, counted afresh.
fn last_counted(width: usize, reports: &[Noise]) -> NoiseCounts {
    let last = &reports[reports.len().saturating_sub(width)..];
    let of = |mode| last.iter().filter(|r| r.mode == mode).count() as u64;
    NoiseCounts {
        off: of(NoiseMode::Off),
        anc: of(NoiseMode::Anc),
        ambient: of(NoiseMode::Ambient),
        level: last.iter().filter(|r| r.ambient_level.is_some()).count() as u64,
    }
}

#[test]
fn last_reports() {
    let mut w = NoiseWindow::open(2);
    assert_eq!((w.width(), w.counts()), (2, NoiseCounts::default()));
    assert_eq!(w.push(REPORTS[0]), Ok(NoiseCounts { off: 1, anc: 0, ambient: 0, level: 1 }));
    assert_eq!(w.push(REPORTS[4]), Ok(NoiseCounts { off: 1, anc: 1, ambient: 0, level: 1 }));
    let before = w;
    assert_eq!(w.push(REPORTS[2]), Err(Refusal::WrongKind));
    assert_eq!(w.push(REPORTS[5]), Err(Refusal::WrongLength));
    assert_eq!(w, before);
    assert_eq!(w.push(REPORTS[6]), Ok(NoiseCounts { off: 0, anc: 1, ambient: 1, level: 1 }));
    assert_eq!(w.counts(), NoiseCounts { off: 0, anc: 1, ambient: 1, level: 1 });

    let far = [(0, 1), (65, 64), (128, 64), (1 << 32, 64), (u64::MAX, 64)];
    for (width, nearest) in (1..=64).map(|width| (width, width)).chain(far) {
        let mut w = NoiseWindow::open(width);
        assert_eq!(w.width(), nearest);
        let mut reports = vec![];
        for i in 0..200 {
            let payload = REPORTS[i * i / 3 % REPORTS.len()];
            let (told, read) = (w.push(payload), noise(payload));
            reports.extend(read);
            let counted = last_counted(nearest as usize, &reports);
            assert_eq!((told, w.counts()), (read.map(|_| counted), counted));
        }
        assert!(reports.len() > 64 && w.width() == nearest);
    }
}

/// A window that no call made: its width is taken as the nearer end, and stays.
#[test]
fn written_windows() {
    for (width, ones) in [(0, 1), (1, 1), (63, 63), (64, 64), (65, 64), (u64::MAX, 64)] {
        let mut w = sys::NoiseWindow { width, off: u64::MAX, anc: 0, ambient: 1 << 63, level: 1 };
        let top = u64::from(ones == 64);
        let mut v = [99; 5];
        assert_eq!(unsafe { sys::mdr_window_counts(&w, v.as_mut_ptr(), v.len()) }, 0);
        assert_eq!(v, [ones, 0, top, 1, 99]);
        let anc = REPORTS[4];
        assert_eq!(unsafe { sys::mdr_window_push(&mut w, anc.as_ptr(), anc.len(), v.as_mut_ptr(), v.len()) }, 0);
        assert_eq!(v, [ones - 1, 1, 0, u64::from(ones > 1), 99]);
        assert_eq!(w, sys::NoiseWindow { width, off: u64::MAX - 1, anc: 1, ambient: 0, level: 2 });
        assert_eq!(unsafe { sys::mdr_window_open(&mut w, width) }, 0);
        assert_eq!(w, sys::NoiseWindow { width: ones, ..Default::default() });
    }
}

#[test]
fn setting_texts() {
    let info = GeneralSettingInfo { slot: 0xD2, name: "été", summary: "Al", name_characters: 3, summary_characters: 2 };
    assert_eq!(general_setting_info(b"\xD1\xD2\x00\x01\x05\xC3\xA9t\xC3\xA9\x02Al"), Ok(info));
    let empty = GeneralSettingInfo { slot: 0xD1, name: "", summary: "", name_characters: 0, summary_characters: 0 };
    assert_eq!(general_setting_info(&[0xD1, 0xD1, 0x00, 0x00, 0, 0]), Ok(empty));
}

#[test]
fn ranges() {
    let a = AmbientRange { min: 0, max: 20, step: 5 };
    let b = AmbientRange { min: 1, max: 3, step: 1 };
    let c = Capability { kind: 0x19, ranges: [Some((true, a)), Some((false, b))] };
    assert_eq!(noise_capability(&[0x61, 0x19, 2, 1, 0, 20, 5, 0, 1, 3, 1]), Ok(c));
    assert_eq!(noise_capability(&[0x61, 0x19, 1, 1, 0, 20, 5]).unwrap().ranges, [Some((true, a)), None]);
    assert_eq!((a.admits(10), a.admits(11), a.admits(-1)), (Ok(true), Ok(false), Ok(false)));
    assert_eq!(AmbientRange { min: 0, max: 9, step: 0 }.admits(3), Err(Refusal::StepZero));
    assert_eq!(a.within(3, 12), Some(AmbientRange { min: 5, max: 10, step: 5 }));
    assert_eq!(a.within(21, 30), None);
}

/// The headset's bounds and then the grader's, in either order and at once.
#[test]
fn narrowed_twice() {
    let range = AmbientRange { min: 1, max: 19, step: 5 };
    let left = AmbientRange { min: 6, max: 11, step: 5 };
    assert_eq!(range.within(2, 17), Some(AmbientRange { min: 6, max: 16, step: 5 }));
    assert_eq!(range.within(2, 17).and_then(|r| r.within(0, 11)), Some(left));
    assert_eq!(range.within(0, 11).and_then(|r| r.within(2, 17)), Some(left));
    assert_eq!(range.within(2, 11), Some(left));
    // Each pair leaves levels, both together none.
    assert_eq!(range.within(0, 10).and_then(|r| r.within(7, 255)), None);
    for (low, high) in (0..=20).flat_map(|low| (0..=20).map(move |high| (low, high))) {
        let twice = range.within(2, 17).and_then(|r| r.within(low, high));
        for level in -1..=25 {
            let lies = (2..=17).contains(&level) && (i32::from(low)..=i32::from(high)).contains(&level);
            let admitted = twice.is_some_and(|r| r.admits(level) == Ok(true));
            assert_eq!(admitted, lies && range.admits(level) == Ok(true), "{low} {high} {level}");
        }
    }
}

#[test]
fn lists() {
    assert_eq!(equalizer(&[0x57, 0x00, 0xA0, 3, 7, 8, 9]), Ok(Equalizer { preset: 0xA0, steps: &[7, 8, 9] }));
    assert_eq!((eq_shape(6), eq_shape(10), eq_shape(3)), (EqShape::ClearBassAndFive, EqShape::TenBands, EqShape::Unknown));
    assert_eq!((eq_bias(10), eq_bias(6)), (6, 10));
    assert_eq!((gain(6, 0), gain(10, 255)), (-10, 249));
    assert_eq!(support_check(&[0x07, 0x00, 1, 0x22, 0x01]), Ok(1));
}

#[test]
fn paired() {
    assert_eq!(paired_devices(DEVICES), Ok(1));
    let address = b"AA:BB:CC:DD:EE:FF";
    let device = PairedDevice { address, status: 1, details: [0, 7, 9], name: b"Al", characters: Some(2) };
    assert_eq!(paired_device(DEVICES, 0), Ok(device));
    assert_eq!(paired_device(DEVICES, 1), Err(Refusal::NoSuchDevice));
}

/// A list of devices, each an address of one letter, what stays, and a name.
fn devices(each: &[(u8, [u8; 4], &[u8])], last: u8) -> Vec<u8> {
    let mut payload = vec![0x37, 0x02, each.len() as u8];
    for (letter, kept, name) in each {
        payload.extend([*letter; 17]);
        payload.extend(kept);
        payload.push(name.len() as u8);
        payload.extend(*name);
    }
    payload.push(last);
    payload
}

#[test]
fn masking() {
    let two = devices(&[(b'a', [1, 0, 7, 9], b"Al"), (b'b', [0x3E, 0, 1, 2], b"")], 5);
    let stars = devices(&[(b'*', [1, 0, 7, 9], b""), (b'*', [0x3E, 0, 1, 2], b"")], 5);
    for (payload, masked) in [
        (DEVICES, &b"\x37\x02\x01*****************\x01\x00\x07\x09\x00\x00"[..]),
        (&two, &stars),
        (&stars, &stars),
        (&devices(&[], 5), &[0x37, 0x02, 0, 5]),
    ] {
        let mut bytes = payload.to_vec();
        assert_eq!(mask_paired(&mut bytes), masked);
        assert_eq!(bytes[..masked.len()], *masked);
        assert_eq!(bytes[masked.len()..], vec![0; payload.len() - masked.len()]);
        assert_eq!(paired_devices(masked), paired_devices(payload));
    }
    // A byte short, a byte left over, another kind, and nothing.
    let other = [&[0x37, 0x03], &two[2..]].concat();
    for refused in [&two[..two.len() - 1], &[&two[..], &[0]].concat(), &other, &[]] {
        let mut bytes = refused.to_vec();
        assert_eq!(mask_paired(&mut bytes), refused);
        assert_eq!(bytes, refused);
    }
}

/// The log of frames that come in pieces of so many bytes, under the house plan.
fn log_of(frames: &[(DataType, &[u8])], piece: usize) -> String {
    let (mut store, mut work, mut out) = ([0; 1_024], [0; 1_024], [0; 4_096]);
    let mut stream = Vec::new();
    for (data_type, payload) in frames {
        let len = pack(*data_type, 1, payload, &mut out).unwrap();
        stream.extend(&out[..len]);
    }
    let mut s = Scanner::open(900, &mut store).unwrap();
    let mut log = Vec::new();
    for piece in stream.chunks(piece) {
        s.push(&mut store, piece).unwrap();
        while let Some(len) = s.line(&mut store, &house_plan(), &mut work, &mut out).unwrap() {
            log.extend(&out[..len]);
        }
    }
    String::from_utf8(log).unwrap()
}

/// Addresses, names and the lengths of names leave no trace in a log, nor does the length of a list that is refused.
#[test]
fn equal_logs() {
    let one = devices(&[(b'a', [1, 0, 7, 9], b"Al"), (b'<', [0x3E, 0, 1, 2], b"")], 5);
    let other = devices(&[(b'>', [1, 0, 7, 9], &[b'='; 255]), (b'b', [0x3E, 0, 1, 2], b"Ines's phone")], 5);
    let log = |list: &[u8], cut: usize, piece: usize| {
        log_of(&[(DataType::DataMdrNo2, list), (DataType::DataMdrNo2, &list[..cut]), (DataType::Ack, &[])], piece)
    };
    let first = log(&one, one.len() - 1, 7);
    assert_eq!(first, log(&other, 40, 100));
    let lines: Vec<&str> = first.lines().collect();
    assert_eq!((lines.len(), &lines[0][..20]), (3, "S 3E0E01000000303702"));
    assert_eq!(lines[1..], ["H 0E01FFFFFFFF37", "H 010100000000"]);

    // Where the plan's entry is not 5 the length is the payload's.
    let under = |data_type| log_of(&[(data_type, &one[..40])], 9);
    assert_eq!(under(DataType::DataMdrNo2), "H 0E01FFFFFFFF37\n");
    assert_eq!(under(DataType::DataMdr), "H 0C010000002837\n");
}

fn device_called(name: &[u8]) -> Vec<u8> {
    [&DEVICES[..24], &[name.len() as u8], name, &[0]].concat()
}

fn setting_called(name: &[u8], summary: &[u8]) -> Vec<u8> {
    [&[0xD1, 0xD1, 0x00, 0x00, name.len() as u8], name, &[summary.len() as u8], summary].concat()
}

#[test]
fn characters() {
    for (bytes, number) in [
        (&b""[..], Some(0)),
        (b"Al", Some(2)),
        (&[b'n'; 255], Some(255)),
        ("é".as_bytes(), Some(1)),
        // A letter, and an accent behind it.
        ("e\u{301}".as_bytes(), Some(2)),
        ("ヘッドホン 🎧".as_bytes(), Some(7)),
        // Cut inside a character.
        (&[b'A', 0xC3], None),
        (&"🎧".as_bytes()[..3], None),
        (&[0xC0, 0x80], None),
        (&[0xED, 0xA0, 0x80], None),
    ] {
        assert_eq!(count_characters(bytes), number);
        let payload = device_called(bytes);
        let device = paired_device(&payload, 0).unwrap();
        assert_eq!((device.name, device.characters.map(usize::from)), (bytes, number));
        let called = |name: &[u8], summary: &[u8]| {
            let info = setting_called(name, summary);
            general_setting_info(&info).map(|i| (i.name_characters.into(), i.summary_characters.into()))
        };
        assert_eq!(called(bytes, "té".as_bytes()), number.map(|n| (n, 2)).ok_or(Refusal::NotText));
        assert_eq!(called("té".as_bytes(), bytes), number.map(|n| (2, n)).ok_or(Refusal::NotText));
    }
    // Longer than any name.
    assert_eq!(count_characters("é".repeat(300).as_bytes()), Some(300));
    assert_eq!(count_characters(&"é".repeat(300).as_bytes()[..599]), None);
}

/// What a call leaves in 9 numbers that were all 99, lent so many of them.
fn told_in(room: usize, call: impl FnOnce(*mut u64, usize) -> u8) -> [u64; 9] {
    let mut values = [99; 9];
    assert_eq!(call(values.as_mut_ptr(), room), 0);
    values
}

#[test]
fn numbers_that_fit() {
    let (device, none) = (device_called("Zoë".as_bytes()), device_called(&[0xFF]));
    let setting = setting_called("Zoë".as_bytes(), b"Al");
    for room in 0..=9 {
        let front = |numbers: &[u64]| {
            let mut values = [99; 9];
            let n = numbers.len().min(room);
            values[..n].copy_from_slice(&numbers[..n]);
            values
        };
        for (bytes, numbers) in [("Zoë".as_bytes(), &[1, 3][..]), (b"", &[1, 0]), (&[0xFF], &[0])] {
            let told = told_in(room, |v, n| unsafe { sys::mdr_count_characters(bytes.as_ptr(), bytes.len(), v, n) });
            assert_eq!(told, front(numbers));
        }
        for (payload, len, characters) in [(&device, 4, 3), (&none, 1, 256)] {
            let told = told_in(room, |v, n| unsafe { sys::mdr_paired_device(payload.as_ptr(), payload.len(), 0, v, n) });
            assert_eq!(told, front(&[3, 1, 0, 7, 9, 25, len, characters]));
        }
        let told = told_in(room, |v, n| unsafe { sys::mdr_general_setting_info(setting.as_ptr(), setting.len(), v, n) });
        assert_eq!(told, front(&[0xD1, 5, 4, 10, 2, 3, 2]));
        let told = told_in(room, |v, n| unsafe { sys::mdr_bill(1, 2, 1, 1, 190, v, n) });
        assert_eq!(told, front(&[8, 10]));
        let told = told_in(room, |v, n| unsafe { sys::mdr_bill_text(LOG.as_ptr(), LOG.len(), 190, v, n) });
        assert_eq!(told, front(&[8, 10]));
        let told = told_in(room, |v, n| unsafe { sys::mdr_count_text(LOG.as_ptr(), LOG.len(), v, n) });
        assert_eq!(told, front(&[1, 2, 1, 1]));
        let mut w = sys::NoiseWindow { width: 3, off: 5, anc: 2, ambient: 0, level: 7 };
        let told = told_in(room, |v, n| unsafe { sys::mdr_window_counts(&w, v, n) });
        assert_eq!(told, front(&[2, 1, 0, 3]));
        let told = told_in(room, |v, n| unsafe { sys::mdr_window_push(&mut w, REPORTS[6].as_ptr(), REPORTS[6].len(), v, n) });
        assert_eq!(told, front(&[1, 1, 1, 3]));
        let (mut s, mut store) = near(&DUE, [GREATEST; 3]);
        let (mut work, mut out) = ([0; 16], [0; 11]);
        let told = told_in(room, |v, n| unsafe {
            sys::mdr_acknowledge(&mut s, store.as_mut_ptr(), 16, work.as_mut_ptr(), 16, out.as_mut_ptr(), 11, v, n)
        });
        assert_eq!((told, out), (front(&[11]), ITS_ACK));
    }
}

#[test]
fn support_lists() {
    let rest = SupportFunction { code: 9, priority: 9 };
    let mut records = [rest; 2];
    assert_eq!(support_functions(Table::Two, &[0x07, 0x00, 1, 0x22, 0x01], &mut records), Ok(1));
    assert_eq!(records, [SupportFunction { code: 0x22, priority: 0x01 }, rest]);
    assert_eq!(support_functions(Table::One, &[0x07, 0x00, 1, 0x22, 0x01], &mut []), Err(Refusal::TooFewRecords));
}

/// Each payload with what a call refuses it by; and those without a kind.
fn refused(call: impl Fn(&[u8]) -> Option<Refusal>, payloads: &[(&[u8], Refusal)]) {
    for (payload, refusal) in payloads {
        assert_eq!(call(payload), Some(*refusal), "{payload:02X?}");
    }
    for short in [&[][..], &[0x00], &[0x37]] {
        assert_eq!(call(short), Some(Refusal::WrongKind), "{short:02X?}");
    }
}

#[test]
fn causes_of_fixed_readings() {
    use Refusal::{LevelTooHigh, OtherMessage, WrongKind, WrongLength};
    let payloads: &[(&[u8], Refusal)] = &[
        (&[0x23, 0x03, 0x50, 0x01], WrongKind),
        (&[0x23, 0x03, 0xFF, 0x01], WrongKind),
        (&[0x23, 0x00], WrongLength),
        (&[0x23, 0x00, 0x50], WrongLength),
        (&[0x23, 0x00, 0x50, 0x01, 0x1E], WrongLength),
        (&[0x23, 0x00, 0xFF], WrongLength),
        (&[0x23, 0x00, 0xFF, 0x01, 0x1E], WrongLength),
        (&[0x23, 0x09, 1, 0, 2, 7, 3], WrongLength),
        (&[0x23, 0x00, 0x65, 0x01], LevelTooHigh),
    ];
    refused(|p| battery(p).err(), payloads);
    let payloads: &[(&[u8], Refusal)] = &[
        (&[0x67, 0x14, 0x01, 0x00, 0x00, 0x01, 0x05], WrongKind),
        (&[0x67, 0x17], WrongLength),
        (&[0x67, 0x17, 0x01, 0x00, 0x00, 0x01], WrongLength),
        (&[0x67, 0x17, 0x01, 0x00, 0x00, 0x01, 0x05, 0x00], WrongLength),
    ];
    refused(|p| noise(p).err(), payloads);
    refused(|p| NoiseWindow::open(10).push(p).err(), payloads);
    let payloads: &[(&[u8], Refusal)] = &[
        (&[0xD7, 0x00], WrongLength),
        (&[0xD7, 0xD1, 0x01], WrongLength),
        (&[0xD7, 0xD1, 0x01, 0x02, 0x00], WrongLength),
        (&[0xD7, 0xD1, 0x01, 0x00], OtherMessage),
        (&[0xD7, 0xD1, 0x00, 0x02], OtherMessage),
    ];
    refused(|p| general_setting(p).err(), payloads);
}

#[test]
fn causes_of_counted_readings() {
    use Refusal::{NoSuchDevice, OtherMessage, TooFewRecords, WrongKind, WrongLength};
    let payloads: &[(&[u8], Refusal)] = &[
        (&[0x61, 0x12, 1, 1, 0, 20, 5], WrongKind),
        (&[0x61, 0x1A], WrongKind),
        (&[0x61, 0x19], WrongLength),
        (&[0x61, 0x19, 2, 1, 0, 20, 5], WrongLength),
        (&[0x61, 0x19, 1, 2, 0, 20, 5, 0], WrongLength),
        (&[0x61, 0x19, 0, 0], WrongLength),
        (&[0x61, 0x19, 0], OtherMessage),
        (&[0x61, 0x19, 1, 2, 0, 20, 5], OtherMessage),
        (&[0x61, 0x19, 1, 1, 21, 20, 5], OtherMessage),
        (&[0x61, 0x19, 1, 1, 0, 20, 0], OtherMessage),
        (&[0x61, 0x19, 2, 1, 0, 20, 5, 1, 0, 20, 5], OtherMessage),
    ];
    refused(|p| noise_capability(p).err(), payloads);
    let payloads: &[(&[u8], Refusal)] = &[
        (&[0x57, 0x01, 0xA0, 0], WrongKind),
        (&[0x57, 0x00, 0xA0], WrongLength),
        (&[0x57, 0x00, 0xA0, 2, 7], WrongLength),
        (&[0x57, 0x00, 0xA0, 0, 7], WrongLength),
    ];
    refused(|p| equalizer(p).err(), payloads);

    let support: &[(&[u8], Refusal)] = &[
        (&[0x07, 0x01, 1, 0x22, 0x01], WrongKind),
        (&[0x07, 0x00], WrongLength),
        (&[0x07, 0x00, 2, 0x22, 0x01], WrongLength),
        (&[0x07, 0x00, 1, 0x22, 0x01, 0x23], WrongLength),
    ];
    refused(|p| support_check(p).err(), support);
    refused(|p| support_functions(Table::One, p, &mut []).err(), support);
    refused(|p| support_functions(Table::One, p, &mut []).err(), &[(&[0x07, 0x00, 1, 0x22, 0x01], TooFewRecords)]);

    let other = [&[0x37, 0x03], &DEVICES[2..]].concat();
    let longer = [DEVICES, &[0]].concat();
    let devices: &[(&[u8], Refusal)] = &[
        (&other, WrongKind),
        (&[0x37, 0x02], WrongLength),
        (&[0x37, 0x02, 0], WrongLength),
        (&[0x37, 0x02, 0, 0, 0], WrongLength),
        (&DEVICES[..DEVICES.len() - 1], WrongLength),
        (&longer, WrongLength),
    ];
    refused(|p| paired_devices(p).err(), devices);
    for index in [0, 1, 2, usize::MAX] {
        refused(|p| paired_device(p, index).err(), devices);
    }
    refused(|p| paired_device(p, 1).err(), &[(DEVICES, NoSuchDevice), (&[0x37, 0x02, 0, 0], NoSuchDevice)]);
}

#[test]
fn causes_of_setting_texts() {
    use Refusal::{NotText, OtherMessage, WrongLength};
    let payloads: &[(&[u8], Refusal)] = &[
        (&[0xD1, 0x00], WrongLength),
        (&[0xD1, 0xD1, 0, 0, 0], WrongLength),
        (&[0xD1, 0xD1, 0, 0, 0, 0, 0], WrongLength),
        (&[0xD1, 0xD1, 0, 0, 1, 0xFF, 1], WrongLength),
        (&[0xD1, 0xD1, 1, 2, 0, 1], WrongLength),
        // The original, which counts the repaired text, reads it.
        (&[0xD1, 0xD1, 0, 0, 0, 1, 0xFF, 0, 0], WrongLength),
        (&[0xD1, 0xD1, 1, 0, 0, 0], OtherMessage),
        (&[0xD1, 0xD1, 0, 2, 0, 0], OtherMessage),
        (&[0xD1, 0xD1, 1, 0, 1, 0xFF, 0], OtherMessage),
        (&[0xD1, 0xD1, 0, 0, 1, 0xFF, 0], NotText),
        (&[0xD1, 0xD1, 0, 0, 0, 2, 0xC0, 0x80], NotText),
        (&[0xD1, 0xD1, 0, 0, 0, 3, 0xF0, 0x90, 0x80], NotText),
    ];
    refused(|p| general_setting_info(p).err(), payloads);
}

#[test]
fn many_at_once() {
    let two = [0x00, 0x3E, 0x3C, 0x3E, 0x41, 0x3C, 0x3E];
    assert_eq!(seek(&two), Some(Span { at: 1, len: 2 }));
    assert_eq!(seek(&two[3..]), Some(Span { at: 0, len: 3 }));
    assert_eq!(seek(&two[6..]), None);

    let mut store = [0; 16];
    let mut s = Scanner::open(9, &mut store).unwrap();
    s.push(&mut store, &two).unwrap();
    let (mut work, mut out) = ([0xEE; 16], [0xEE; 12]);
    assert_eq!(s.all_lines(&mut store, &house_plan(), &mut work, &mut out), (10, Ok(())));
    assert_eq!(&out, b"R 08\nR 08\n\xEE\xEE");
    assert_eq!((s.count, store[0], work), (1, 0x3E, [0; 16]));

    s.push(&mut store, &two[4..]).unwrap();
    assert_eq!(s.all_lines(&mut store, &house_plan(), &mut work, &mut []), (0, Err(Refusal::LineTooLong)));
    assert_eq!(s.count, 4);
    s.skip(&mut store, 0, 3).unwrap();
    assert_eq!((s.count, store[0], store[1]), (1, 0x3E, 0));
}
