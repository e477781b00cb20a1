//! OURS, by 02's C-22: which spans are acknowledged, over the original's `unpack` and `ack_frame`. The original's `is_data` leaves out types
//! that are acknowledged here.
use original::mdr::DataType;
use original::mdr::frame::{ack_frame, unpack};

/// The ack of a span; none where the span is refused or an ack itself.
pub fn of_span(span: &[u8]) -> Option<Vec<u8>> {
    let frame = unpack(span).ok()?;
    (frame.data_type != DataType::Ack).then(|| ack_frame(frame.seq))
}

/// The acks of spans, one behind the other.
pub fn of_spans(spans: &[Vec<u8>]) -> Vec<u8> {
    spans.iter().filter_map(|span| of_span(span)).flatten().collect()
}
