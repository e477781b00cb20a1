//! The calls as the library defines them: `bindings/c/mdr.h` says what each does.

/// The scanner's state. The caller lends each call the store, the same one as left by the call before.
#[repr(C)]
#[derive(Clone, Copy, Debug, Default, PartialEq, Eq)]
pub struct Scanner {
    pub limit: usize,
    pub count: usize,
    /// bytes of the pushes that were accepted
    pub pushed: u64,
    /// bytes of the spans that went, markers included
    pub handed: u64,
    /// bytes that went outside of a span
    pub dropped: u64,
}

#[repr(C)]
#[derive(Clone, Copy, Debug, Default, PartialEq, Eq)]
pub struct SupportFunction {
    pub code: u8,
    pub priority: u8,
}

/// A window over the last noise reports. A row has a binary digit for each of the last 64, the newest lowest.
#[repr(C)]
#[derive(Clone, Copy, Debug, Default, PartialEq, Eq)]
pub struct NoiseWindow {
    pub width: u64,
    pub off: u64,
    pub anc: u64,
    pub ambient: u64,
    /// 1 for those that hold an ambient level
    pub level: u64,
}

unsafe extern "C" {
    pub fn mdr_data_type(byte: u8) -> u8;
    pub fn mdr_checksum(bytes: *const u8, bytes_len: usize) -> u8;
    pub fn mdr_checksum_from_end(sum: u8, bytes: *const u8, bytes_len: usize) -> u8;
    pub fn mdr_escape(src: *const u8, src_len: usize, out: *mut u8, out_len: usize, values: *mut u64, values_len: usize) -> u8;
    pub fn mdr_unescape(src: *const u8, src_len: usize, out: *mut u8, out_len: usize, values: *mut u64, values_len: usize) -> u8;
    pub fn mdr_pack(
        data_type: u8,
        seq: u8,
        payload: *const u8,
        payload_len: usize,
        out: *mut u8,
        out_len: usize,
        values: *mut u64,
        values_len: usize,
    ) -> u8;
    pub fn mdr_ack(seq: u8, out: *mut u8, out_len: usize, values: *mut u64, values_len: usize) -> u8;
    pub fn mdr_unpack(frame: *const u8, frame_len: usize, work: *mut u8, work_len: usize, values: *mut u64, values_len: usize) -> u8;
    pub fn mdr_read_header(frame: *const u8, frame_len: usize, values: *mut u64, values_len: usize) -> u8;

    pub fn mdr_open(scanner: *mut Scanner, limit: usize, store: *mut u8, store_len: usize) -> u8;
    pub fn mdr_push(scanner: *mut Scanner, store: *mut u8, store_len: usize, piece: *const u8, piece_len: usize) -> u8;
    pub fn mdr_find(scanner: *const Scanner, store: *const u8, store_len: usize, values: *mut u64, values_len: usize) -> u8;
    pub fn mdr_take(scanner: *mut Scanner, store: *mut u8, store_len: usize, values: *mut u64, values_len: usize) -> u8;
    pub fn mdr_skip(scanner: *mut Scanner, store: *mut u8, store_len: usize, dropped: usize, handed: usize) -> u8;
    pub fn mdr_seek(bytes: *const u8, bytes_len: usize, values: *mut u64, values_len: usize) -> u8;

    pub fn mdr_message(payload: *const u8, payload_len: usize, values: *mut u64, values_len: usize) -> u8;
    pub fn mdr_battery(payload: *const u8, payload_len: usize, values: *mut u64, values_len: usize) -> u8;
    pub fn mdr_noise(payload: *const u8, payload_len: usize, values: *mut u64, values_len: usize) -> u8;
    pub fn mdr_noise_capability(payload: *const u8, payload_len: usize, values: *mut u64, values_len: usize) -> u8;
    pub fn mdr_equalizer(payload: *const u8, payload_len: usize, values: *mut u64, values_len: usize) -> u8;
    pub fn mdr_paired_devices(payload: *const u8, payload_len: usize, values: *mut u64, values_len: usize) -> u8;
    pub fn mdr_paired_device(payload: *const u8, payload_len: usize, index: usize, values: *mut u64, values_len: usize) -> u8;
    pub fn mdr_mask_paired(payload: *mut u8, payload_len: usize) -> usize;
    pub fn mdr_support_check(payload: *const u8, payload_len: usize, values: *mut u64, values_len: usize) -> u8;
    pub fn mdr_support_functions(
        table: u8,
        payload: *const u8,
        payload_len: usize,
        records: *mut SupportFunction,
        records_len: usize,
        values: *mut u64,
        values_len: usize,
    ) -> u8;
    pub fn mdr_general_setting(payload: *const u8, payload_len: usize, values: *mut u64, values_len: usize) -> u8;
    pub fn mdr_general_setting_info(payload: *const u8, payload_len: usize, values: *mut u64, values_len: usize) -> u8;
    pub fn mdr_count_characters(bytes: *const u8, bytes_len: usize, values: *mut u64, values_len: usize) -> u8;
    pub fn mdr_admits(min: u8, max: u8, step: u8, level: i32, values: *mut u64, values_len: usize) -> u8;
    pub fn mdr_within(min: u8, max: u8, step: u8, low: u8, high: u8, values: *mut u64, values_len: usize) -> u8;
    pub fn mdr_eq_shape(count: usize) -> u8;
    pub fn mdr_eq_bias(count: usize) -> i32;
    pub fn mdr_gain(count: usize, step: u8) -> i32;

    pub fn mdr_window_open(window: *mut NoiseWindow, width: u64) -> u8;
    pub fn mdr_window_push(window: *mut NoiseWindow, payload: *const u8, payload_len: usize, values: *mut u64, values_len: usize) -> u8;
    pub fn mdr_window_counts(window: *const NoiseWindow, values: *mut u64, values_len: usize) -> u8;

    pub fn mdr_house_plan(plan: *mut u8);
    pub fn mdr_plan_fine(plan: *const u8, plan_len: usize) -> bool;
    pub fn mdr_line(
        scanner: *mut Scanner,
        store: *mut u8,
        store_len: usize,
        plan: *const u8,
        plan_len: usize,
        work: *mut u8,
        work_len: usize,
        out: *mut u8,
        out_len: usize,
        values: *mut u64,
        values_len: usize,
    ) -> u8;
    pub fn mdr_all_lines(
        scanner: *mut Scanner,
        store: *mut u8,
        store_len: usize,
        plan: *const u8,
        plan_len: usize,
        work: *mut u8,
        work_len: usize,
        out: *mut u8,
        out_len: usize,
        values: *mut u64,
        values_len: usize,
    ) -> u8;
    pub fn mdr_acknowledge(
        scanner: *mut Scanner,
        store: *mut u8,
        store_len: usize,
        work: *mut u8,
        work_len: usize,
        out: *mut u8,
        out_len: usize,
        values: *mut u64,
        values_len: usize,
    ) -> u8;
    pub fn mdr_read_line(line: *const u8, line_len: usize, out: *mut u8, out_len: usize, values: *mut u64, values_len: usize) -> u8;

    pub fn mdr_bill(full: u64, masked: u64, header: u64, unread: u64, tax: u64, values: *mut u64, values_len: usize) -> u8;
    pub fn mdr_bill_text(text: *const u8, text_len: usize, tax: u64, values: *mut u64, values_len: usize) -> u8;
    pub fn mdr_count_text(text: *const u8, text_len: usize, values: *mut u64, values_len: usize) -> u8;
}
