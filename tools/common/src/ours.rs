//! The exports of the static library libffi.a, each in a form that takes slices.
//!
//! A status is 0 or the number of a refusal in document 01's list. `values` gets the answer's numbers, from the front on, as many as fit.
#[path = "../../../bindings/rust/src/sys.rs"]
mod sys;

pub use sys::{NoiseWindow, Scanner, SupportFunction};

// SAFETY, of every call below: a slice's pointer and length are those of one Rust slice, so that they are valid and never null, and what is
// written to is lent to that call alone.

pub fn data_type(byte: u8) -> u8 {
    unsafe { sys::mdr_data_type(byte) }
}

pub fn checksum(bytes: &[u8]) -> u8 {
    unsafe { sys::mdr_checksum(bytes.as_ptr(), bytes.len()) }
}

pub fn checksum_from_end(sum: u8, bytes: &[u8]) -> u8 {
    unsafe { sys::mdr_checksum_from_end(sum, bytes.as_ptr(), bytes.len()) }
}

pub fn escape(src: &[u8], out: &mut [u8], values: &mut [u64]) -> u8 {
    unsafe { sys::mdr_escape(src.as_ptr(), src.len(), out.as_mut_ptr(), out.len(), values.as_mut_ptr(), values.len()) }
}

pub fn unescape(src: &[u8], out: &mut [u8], values: &mut [u64]) -> u8 {
    unsafe { sys::mdr_unescape(src.as_ptr(), src.len(), out.as_mut_ptr(), out.len(), values.as_mut_ptr(), values.len()) }
}

pub fn pack(data_type: u8, seq: u8, payload: &[u8], out: &mut [u8], values: &mut [u64]) -> u8 {
    unsafe {
        sys::mdr_pack(
            data_type,
            seq,
            payload.as_ptr(),
            payload.len(),
            out.as_mut_ptr(),
            out.len(),
            values.as_mut_ptr(),
            values.len(),
        )
    }
}

pub fn ack(seq: u8, out: &mut [u8], values: &mut [u64]) -> u8 {
    unsafe { sys::mdr_ack(seq, out.as_mut_ptr(), out.len(), values.as_mut_ptr(), values.len()) }
}

pub fn unpack(frame: &[u8], work: &mut [u8], values: &mut [u64]) -> u8 {
    unsafe { sys::mdr_unpack(frame.as_ptr(), frame.len(), work.as_mut_ptr(), work.len(), values.as_mut_ptr(), values.len()) }
}

pub fn read_header(frame: &[u8], values: &mut [u64]) -> u8 {
    unsafe { sys::mdr_read_header(frame.as_ptr(), frame.len(), values.as_mut_ptr(), values.len()) }
}

pub fn open(scanner: &mut Scanner, limit: usize, store: &mut [u8]) -> u8 {
    unsafe { sys::mdr_open(scanner, limit, store.as_mut_ptr(), store.len()) }
}

pub fn push(scanner: &mut Scanner, store: &mut [u8], piece: &[u8]) -> u8 {
    unsafe { sys::mdr_push(scanner, store.as_mut_ptr(), store.len(), piece.as_ptr(), piece.len()) }
}

pub fn find(scanner: &Scanner, store: &[u8], values: &mut [u64]) -> u8 {
    unsafe { sys::mdr_find(scanner, store.as_ptr(), store.len(), values.as_mut_ptr(), values.len()) }
}

pub fn take(scanner: &mut Scanner, store: &mut [u8], values: &mut [u64]) -> u8 {
    unsafe { sys::mdr_take(scanner, store.as_mut_ptr(), store.len(), values.as_mut_ptr(), values.len()) }
}

pub fn skip(scanner: &mut Scanner, store: &mut [u8], dropped: usize, handed: usize) -> u8 {
    unsafe { sys::mdr_skip(scanner, store.as_mut_ptr(), store.len(), dropped, handed) }
}

pub fn seek(bytes: &[u8], values: &mut [u64]) -> u8 {
    unsafe { sys::mdr_seek(bytes.as_ptr(), bytes.len(), values.as_mut_ptr(), values.len()) }
}

pub fn message(payload: &[u8], values: &mut [u64]) -> u8 {
    unsafe { sys::mdr_message(payload.as_ptr(), payload.len(), values.as_mut_ptr(), values.len()) }
}

pub fn battery(payload: &[u8], values: &mut [u64]) -> u8 {
    unsafe { sys::mdr_battery(payload.as_ptr(), payload.len(), values.as_mut_ptr(), values.len()) }
}

pub fn noise(payload: &[u8], values: &mut [u64]) -> u8 {
    unsafe { sys::mdr_noise(payload.as_ptr(), payload.len(), values.as_mut_ptr(), values.len()) }
}

pub fn noise_capability(payload: &[u8], values: &mut [u64]) -> u8 {
    unsafe { sys::mdr_noise_capability(payload.as_ptr(), payload.len(), values.as_mut_ptr(), values.len()) }
}

pub fn equalizer(payload: &[u8], values: &mut [u64]) -> u8 {
    unsafe { sys::mdr_equalizer(payload.as_ptr(), payload.len(), values.as_mut_ptr(), values.len()) }
}

pub fn paired_devices(payload: &[u8], values: &mut [u64]) -> u8 {
    unsafe { sys::mdr_paired_devices(payload.as_ptr(), payload.len(), values.as_mut_ptr(), values.len()) }
}

pub fn paired_device(payload: &[u8], index: usize, values: &mut [u64]) -> u8 {
    unsafe { sys::mdr_paired_device(payload.as_ptr(), payload.len(), index, values.as_mut_ptr(), values.len()) }
}

pub fn mask_paired(payload: &mut [u8]) -> usize {
    unsafe { sys::mdr_mask_paired(payload.as_mut_ptr(), payload.len()) }
}

pub fn support_check(payload: &[u8], values: &mut [u64]) -> u8 {
    unsafe { sys::mdr_support_check(payload.as_ptr(), payload.len(), values.as_mut_ptr(), values.len()) }
}

pub fn support_functions(table: u8, payload: &[u8], records: &mut [SupportFunction], values: &mut [u64]) -> u8 {
    unsafe {
        sys::mdr_support_functions(
            table,
            payload.as_ptr(),
            payload.len(),
            records.as_mut_ptr(),
            records.len(),
            values.as_mut_ptr(),
            values.len(),
        )
    }
}

pub fn general_setting(payload: &[u8], values: &mut [u64]) -> u8 {
    unsafe { sys::mdr_general_setting(payload.as_ptr(), payload.len(), values.as_mut_ptr(), values.len()) }
}

pub fn general_setting_info(payload: &[u8], values: &mut [u64]) -> u8 {
    unsafe { sys::mdr_general_setting_info(payload.as_ptr(), payload.len(), values.as_mut_ptr(), values.len()) }
}

pub fn count_characters(bytes: &[u8], values: &mut [u64]) -> u8 {
    unsafe { sys::mdr_count_characters(bytes.as_ptr(), bytes.len(), values.as_mut_ptr(), values.len()) }
}

pub fn admits(min: u8, max: u8, step: u8, level: i32, values: &mut [u64]) -> u8 {
    unsafe { sys::mdr_admits(min, max, step, level, values.as_mut_ptr(), values.len()) }
}

pub fn within(min: u8, max: u8, step: u8, low: u8, high: u8, values: &mut [u64]) -> u8 {
    unsafe { sys::mdr_within(min, max, step, low, high, values.as_mut_ptr(), values.len()) }
}

pub fn eq_shape(steps: usize) -> u8 {
    unsafe { sys::mdr_eq_shape(steps) }
}

pub fn eq_bias(steps: usize) -> i32 {
    unsafe { sys::mdr_eq_bias(steps) }
}

pub fn gain(steps: usize, step: u8) -> i32 {
    unsafe { sys::mdr_gain(steps, step) }
}

pub fn window_open(window: &mut NoiseWindow, width: u64) -> u8 {
    unsafe { sys::mdr_window_open(window, width) }
}

pub fn window_push(window: &mut NoiseWindow, payload: &[u8], values: &mut [u64]) -> u8 {
    unsafe { sys::mdr_window_push(window, payload.as_ptr(), payload.len(), values.as_mut_ptr(), values.len()) }
}

pub fn window_counts(window: &NoiseWindow, values: &mut [u64]) -> u8 {
    unsafe { sys::mdr_window_counts(window, values.as_mut_ptr(), values.len()) }
}

pub fn house_plan(plan: &mut [u8; 512]) {
    unsafe { sys::mdr_house_plan(plan.as_mut_ptr()) }
}

pub fn plan_fine(plan: &[u8]) -> bool {
    unsafe { sys::mdr_plan_fine(plan.as_ptr(), plan.len()) }
}

pub fn line(scanner: &mut Scanner, store: &mut [u8], plan: &[u8], work: &mut [u8], out: &mut [u8], values: &mut [u64]) -> u8 {
    unsafe {
        sys::mdr_line(
            scanner,
            store.as_mut_ptr(),
            store.len(),
            plan.as_ptr(),
            plan.len(),
            work.as_mut_ptr(),
            work.len(),
            out.as_mut_ptr(),
            out.len(),
            values.as_mut_ptr(),
            values.len(),
        )
    }
}

pub fn all_lines(scanner: &mut Scanner, store: &mut [u8], plan: &[u8], work: &mut [u8], out: &mut [u8], values: &mut [u64]) -> u8 {
    unsafe {
        sys::mdr_all_lines(
            scanner,
            store.as_mut_ptr(),
            store.len(),
            plan.as_ptr(),
            plan.len(),
            work.as_mut_ptr(),
            work.len(),
            out.as_mut_ptr(),
            out.len(),
            values.as_mut_ptr(),
            values.len(),
        )
    }
}

pub fn acknowledge(scanner: &mut Scanner, store: &mut [u8], work: &mut [u8], out: &mut [u8], values: &mut [u64]) -> u8 {
    unsafe {
        sys::mdr_acknowledge(
            scanner,
            store.as_mut_ptr(),
            store.len(),
            work.as_mut_ptr(),
            work.len(),
            out.as_mut_ptr(),
            out.len(),
            values.as_mut_ptr(),
            values.len(),
        )
    }
}

pub fn read_line(line: &[u8], out: &mut [u8], values: &mut [u64]) -> u8 {
    unsafe { sys::mdr_read_line(line.as_ptr(), line.len(), out.as_mut_ptr(), out.len(), values.as_mut_ptr(), values.len()) }
}

pub fn bill([full, masked, header, unread]: [u64; 4], tax: u64, values: &mut [u64]) -> u8 {
    unsafe { sys::mdr_bill(full, masked, header, unread, tax, values.as_mut_ptr(), values.len()) }
}

pub fn bill_text(text: &[u8], tax: u64, values: &mut [u64]) -> u8 {
    unsafe { sys::mdr_bill_text(text.as_ptr(), text.len(), tax, values.as_mut_ptr(), values.len()) }
}

pub fn count_text(text: &[u8], values: &mut [u64]) -> u8 {
    unsafe { sys::mdr_count_text(text.as_ptr(), text.len(), values.as_mut_ptr(), values.len()) }
}
