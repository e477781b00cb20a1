/* The MDR frame log: frames, scanner, readings, the last noise reports, the masked log and the acks of a listening station.
 *
 * A slice is two arguments, a pointer and a length. No pointer may be null, also where its length is 0. What a call may write to must not
 * overlap anything else that the call is lent. No call keeps a pointer, allocates, or has a state of its own, so calls on different buffers
 * may run at the same time.
 *
 * Every input is taken. A call that can refuse, or whose answer is more than one plain value, returns a status: 0, or the number of the
 * refusal (enum mdr_refusal). All that it tells goes to `values`, from the front on, as many numbers as fit; entries behind them stay as
 * they were. The comment of a call lists its numbers in brackets. A refusal tells the numbers that stand beside its name in enum
 * mdr_refusal, or none. A call whose answer is one plain value that no input refuses returns it.
 *
 * "or 256": an absent byte is 256. "or 2": an absent flag is 2; else 0 is no and 1 is yes.
 */
#ifndef MDR_H
#define MDR_H

#include <stdbool.h>
#include <stddef.h>
#include <stdint.h>

#ifdef __cplusplus
extern "C" {
#endif

enum mdr_refusal {
    MDR_LIMIT_OUT_OF_RANGE = 1, /* below 9 or above 65536 */
    MDR_STORE_TOO_SHORT = 2,    /* shorter than the limit and one byte more */
    MDR_HELD_BEYOND_STORE = 3,  /* the count is above the store's length */
    MDR_STORE_FULL = 4,         /* the piece does not fit behind the held bytes */
    MDR_BAD_PLAN = 5,           /* not 512 bytes, or an entry above 8 */
    MDR_WORK_TOO_SHORT = 6,     /* the work area of a line call or of acknowledge is shorter than the store */
    MDR_LINE_TOO_LONG = 7,      /* the line does not fit the output */
    MDR_TOO_SHORT = 8,          /* a frame of fewer than 9 bytes */
    MDR_NO_START = 9,
    MDR_NO_END = 10,
    MDR_NO_ROOM = 11, /* unpack: work area shorter than the frame less 2; unescape: output shorter than the input */
    MDR_TRAILING_SENTRY = 12,
    MDR_BAD_ESCAPEE = 13, /* [the byte] */
    MDR_BODY_TOO_SHORT = 14,
    MDR_BAD_CHECKSUM = 15,     /* [declared, computed] */
    MDR_LENGTH_MISMATCH = 16,  /* [declared, actual] */
    MDR_PAYLOAD_TOO_LONG = 17, /* above 4294967295 bytes */
    MDR_OUTPUT_TOO_SHORT = 18, /* escape, pack, ack, read_line, acknowledge */
    MDR_OTHER_MESSAGE = 19,    /* a payload of the right kind and length with other contents; of mdr_message an empty one */
    MDR_TOO_FEW_RECORDS = 20,
    MDR_NO_SUCH_DEVICE = 21,
    MDR_STEP_ZERO = 22,
    MDR_NOT_TEXT = 23,          /* a setting's name or summary is not UTF-8 */
    MDR_NOT_A_LINE = 24,        /* none of the four forms of a log's line */
    MDR_WRONG_KIND = 25,        /* a payload of fewer than 2 bytes, or of a kind that the decoder does not serve */
    MDR_WRONG_LENGTH = 26,      /* a served kind whose bytes run out, are too many, or do not match a count */
    MDR_COUNT_FULL = 27,        /* a count of the scanner's would pass 18446744073709551615 */
    MDR_BILL_OUT_OF_RANGE = 28, /* a tax above 1000, or a line count above 4294967295 */
    MDR_LEVEL_TOO_HIGH = 29     /* a battery level above 100 */
};

/* ---- frames ---- */

/* The place of a type byte's name: 0 Data, 1 Ack, 2 DataMcNo1, 3 DataIcd, 4 DataEv, 5 DataMdr, 6 DataCommon, 7 DataMdrNo2, 8 Shot,
 * 9 ShotMcNo1, 10 ShotIcd, 11 ShotEv, 12 ShotMdr, 13 ShotCommon, 14 ShotMdrNo2, 15 unknown. */
uint8_t mdr_data_type(uint8_t byte);

/* The sum of the bytes, wrapping at 256. */
uint8_t mdr_checksum(const uint8_t *bytes, size_t bytes_len);

/* The bytes added onto `sum` from the last to the first, wrapping at 256, for whoever fills a frame from its far end: the end of a body
 * onto 0, then what stands before it onto that sum, in as many parts as come, give mdr_checksum of the whole. */
uint8_t mdr_checksum_from_end(uint8_t sum, const uint8_t *bytes, size_t bytes_len);

/* [length written]. Writes to the front of `out`; bytes behind stay. Refused (18), `out` stays. */
uint8_t mdr_escape(const uint8_t *src, size_t src_len, uint8_t *out, size_t out_len, uint64_t *values, size_t values_len);

/* [length written]. Writes to the front of `out`; bytes behind stay. Refused by 11 `out` stays, by 12 or 13 all of it is zero. */
uint8_t mdr_unescape(const uint8_t *src, size_t src_len, uint8_t *out, size_t out_len, uint64_t *values, size_t values_len);

/* [length written]. `data_type` is the byte on the wire. Writes to the front of `out`; bytes behind stay. Refused (17, 18), `out` stays. */
uint8_t mdr_pack(uint8_t data_type, uint8_t seq, const uint8_t *payload, size_t payload_len, uint8_t *out, size_t out_len, uint64_t *values,
                 size_t values_len);

/* [length written]. The acknowledgement of a frame that came with the sequence `seq`. Otherwise as mdr_pack. */
uint8_t mdr_ack(uint8_t seq, uint8_t *out, size_t out_len, uint64_t *values, size_t values_len);

/* [type byte, sequence, payload length]. Reads one whole frame, START and END included. The body comes to stand at the front of `work`,
 * its payload from offset 6 on, and the rest of `work` is zero. Refused by 8 to 11 `work` stays, by 12 to 16 all of it is zero. */
uint8_t mdr_unpack(const uint8_t *frame, size_t frame_len, uint8_t *work, size_t work_len, uint64_t *values, size_t values_len);

/* [type byte, sequence, payload length]: what mdr_unpack tells of the frame in a work area that is long enough, without one. Refused by 8
 * to 10 and 12 to 16. */
uint8_t mdr_read_header(const uint8_t *frame, size_t frame_len, uint64_t *values, size_t values_len);

/* ---- the scanner ----
 *
 * The caller keeps the state, and a store that is longer than the limit. The held bytes are the first `count` of the store. Each call is
 * lent both as the call before left them. The state is in the struct alone, so a short `values` loses nothing that the next call needs.
 * Every call that is lent both tries 1 to 3, and where it refuses leaves both as they were; mdr_open makes the state in any case.
 *
 * The state counts where the bytes went: from an accepted opening on, after every call, `pushed` is `handed`, `dropped` and `count` added
 * up. A call that would carry a count above 18446744073709551615 is refused by 27. From an accepted opening on that is always a push;
 * mdr_take, mdr_skip, the line calls and mdr_acknowledge are refused by 27 only where the caller has set the counts itself. A refused call
 * counts nothing, but for the lines that mdr_all_lines wrote before it was refused. */

struct mdr_scanner {
    size_t limit; /* 9 to 65536 */
    size_t count;
    uint64_t pushed;  /* bytes of the pushes that were accepted */
    uint64_t handed;  /* bytes of the spans that went, markers included */
    uint64_t dropped; /* bytes that went outside of a span: before a START, or cleared */
};

/* The state becomes this limit with nothing held and nothing counted, whatever it was, and the store is filled with zeros. Refused (1, 2),
 * the state becomes the same, and the store stays. */
uint8_t mdr_open(struct mdr_scanner *scanner, size_t limit, uint8_t *store, size_t store_len);

/* Puts the piece behind the held bytes and counts it as pushed. Refused by 4 where not all of it fits, then by 27 where the count would be
 * too high: an empty piece by neither. */
uint8_t mdr_push(struct mdr_scanner *scanner, uint8_t *store, size_t store_len, const uint8_t *piece, size_t piece_len);

/* [1, offset, length] of the first span among the held bytes, from the first START to the first END behind it, markers included, or [0]
 * for none. Changes nothing. */
uint8_t mdr_find(const struct mdr_scanner *scanner, const uint8_t *store, size_t store_len, uint64_t *values, size_t values_len);

/* [1] where a span went, else [0]. The first span and what stands before it go. With no span: where no START is among the held bytes,
 * all of them go; else those before the first START go, and where from it on more than the limit is held, these go too. So then at most
 * the limit is held, and one more byte has room, since the store is longer than that, and is accepted unless the pushed count is full.
 * What stays moves to the front, and every byte of the store behind it becomes zero. The span is counted as handed over, all else that
 * goes as dropped. Refused by 27 where either count would be too high, nothing changes. */
uint8_t mdr_take(struct mdr_scanner *scanner, uint8_t *store, size_t store_len, uint64_t *values, size_t values_len);

/* As many held bytes go, from the front on, as `dropped` and `handed` are together, and are counted so; where fewer are held, all of them,
 * the first `dropped` of these as dropped. What stays is left as by mdr_take. For a caller that has read spans where they stand: `dropped`
 * is the sum of what stood before and between them, `handed` that of their lengths. Refused by 27 where either count would be too high. */
uint8_t mdr_skip(struct mdr_scanner *scanner, uint8_t *store, size_t store_len, size_t dropped, size_t handed);

/* [0] no START among the bytes; [1, offset] a START and no END behind it; [2, offset, length] of the first span. Takes any bytes, so
 * that spans can be read where they stand, one behind the other, and then skipped together. Never refuses: the status is 0. */
uint8_t mdr_seek(const uint8_t *bytes, size_t bytes_len, uint64_t *values, size_t values_len);

/* ---- readings ----
 *
 * `payload` is a frame's payload: command, kind, body. The command is not looked at.
 *
 * "Refused (25, 26)": by 25 where the payload has fewer than 2 bytes, an empty one too, or a kind that the call does not serve; then by 26
 * where the bytes run out, are too many, or do not match the count or the lengths among them. What is named behind these is tried last.
 *
 * A character is one encoded code point (Unicode scalar value). How many there are is not the width on a screen: a letter and a combining
 * accent behind it are two. */

/* [command, kind or 256, length]. Refused (19) where the payload is empty. */
uint8_t mdr_message(const uint8_t *payload, size_t payload_len, uint64_t *values, size_t values_len);

/* [level or 256, charging, threshold or 256] for each of main, left, right and case, so 12 numbers. An absent cell is [256, 256, 256].
 * Charging: 0 no, 1 yes, 2 unknown, 3 charged, 256 and the byte added for any other. Each kind has one length. Refused (25, 26), then by
 * 29 where a level is above 100; thresholds are not levels. */
uint8_t mdr_battery(const uint8_t *payload, size_t payload_len, uint64_t *values, size_t values_len);

/* [mode, mode byte or 256, ambient level or 256, focus on voice or 2, settled, adaptive or 2, sensitivity or 256].
 * Mode: 0 off, 1 noise cancelling, 2 ambient. Each kind has one length. Refused (25, 26). */
uint8_t mdr_noise(const uint8_t *payload, size_t payload_len, uint64_t *values, size_t values_len);

/* [kind, count, then voice, min, max, step of each of two places], so 10 numbers. Places behind the count are 0. Refused (25, 26), then
 * by 19 where the count is 0, a voice is above 1 or there twice, a min is above its max, or a step is 0. */
uint8_t mdr_noise_capability(const uint8_t *payload, size_t payload_len, uint64_t *values, size_t values_len);

/* [preset, count, bytes of the steps]. The steps stand in the payload from offset 4 on. Refused (25, 26). */
uint8_t mdr_equalizer(const uint8_t *payload, size_t payload_len, uint64_t *values, size_t values_len);

/* [count] of paired devices. Refused (25, 26). */
uint8_t mdr_paired_devices(const uint8_t *payload, size_t payload_len, uint64_t *values, size_t values_len);

/* [offset of the address, status, detail 0, detail 1, detail 2, offset of the name, length of the name, characters of the name, or 256
 * where it is not UTF-8 (RFC 3629)]. Offsets are in the payload; an address has 17 bytes. The length counts bytes, at most 255; an empty
 * name has 0 characters. Refused (25, 26), then by 21 where the index is not below the count. */
uint8_t mdr_paired_device(const uint8_t *payload, size_t payload_len, size_t index, uint64_t *values, size_t values_len);

/* The length of the masked payload: each address is seventeen `*`, and each name is empty, its length 0. It stands at the front of
 * `payload`, and every byte behind it becomes zero. A payload that mdr_paired_devices refuses stays, and its own length is returned. */
size_t mdr_mask_paired(uint8_t *payload, size_t payload_len);

/* [count] of supported functions. Refused (25, 26). */
uint8_t mdr_support_check(const uint8_t *payload, size_t payload_len, uint64_t *values, size_t values_len);

struct mdr_support_function {
    uint8_t code;
    uint8_t priority;
};

/* [count] of functions. Writes them to the front of `records`; those behind stay. Refused (25, 26), then by 20 where there are fewer records
 * than functions, `records` stays. `table` is 1 for table One, anything else for table Two; it changes nothing in what is read. */
uint8_t mdr_support_functions(uint8_t table, const uint8_t *payload, size_t payload_len, struct mdr_support_function *records,
                              size_t records_len, uint64_t *values, size_t values_len);

/* [slot, enabled]. The slot is the kind; any is served. Refused (25, 26: the body has two bytes), then by 19 where these are not 0 and then
 * 0 or 1. */
uint8_t mdr_general_setting(const uint8_t *payload, size_t payload_len, uint64_t *values, size_t values_len);

/* [slot, offset of the name, length of the name, offset of the summary, length of the summary, characters of the name, characters of the
 * summary], so 7 numbers. Offsets are in the payload. Lengths count bytes and may be 0. Any kind is served. Refused (25, 26), then by 19
 * where the body does not begin with 0 and then 0 or 1, then by 23 where the name or the summary is not UTF-8 (RFC 3629). */
uint8_t mdr_general_setting_info(const uint8_t *payload, size_t payload_len, uint64_t *values, size_t values_len);

/* [1, characters] of bytes that are UTF-8 (RFC 3629), or [0] of others. Takes any bytes; where there are none, [1, 0]. Never refuses: the
 * status is 0. */
uint8_t mdr_count_characters(const uint8_t *bytes, size_t bytes_len, uint64_t *values, size_t values_len);

/* [1] where a headset whose levels go from min to max by step takes `level`, else [0]. Refused by 22 where the step is 0 and the level
 * lies within. */
uint8_t mdr_admits(uint8_t min, uint8_t max, uint8_t step, int32_t level, uint64_t *values, size_t values_len);

/* [1, min, max, step] of the levels that lie from low to high, or [0] for none. Never refuses: the status is 0. What is left may be narrowed
 * again: in either order that is narrowing once, to the higher low and the lower high. */
uint8_t mdr_within(uint8_t min, uint8_t max, uint8_t step, uint8_t low, uint8_t high, uint64_t *values, size_t values_len);

/* The shape of an equalizer with so many steps: 0 clear bass and five bands, 1 ten bands, 2 unknown. */
uint8_t mdr_eq_shape(size_t count);

/* What a step lies above the gain, in an equalizer with so many steps. */
int32_t mdr_eq_bias(size_t count);

/* A band's gain, from its step, in an equalizer with so many steps: -10 to 249. */
int32_t mdr_gain(size_t count, uint8_t step);

/* ---- the last noise reports ----
 *
 * A window over the noise reports of a session, which are handed to it one by one, counts those among the last `width`: how many are off,
 * noise cancelling and ambient, and how many hold an ambient level, whatever their mode. Where fewer have come since the opening, it counts
 * those. The caller keeps the struct, and each call is lent it as the call before left it. Any struct is taken, also one that no call made:
 * a width of 0 counts as 1, one above 64 as 64.
 *
 * Each row has a binary digit for each of the last 64 reports, whatever the width, the newest in the lowest place. */

struct mdr_noise_window {
    uint64_t width;   /* 1 to 64 from an opening on */
    uint64_t off;     /* 1 where the report was off */
    uint64_t anc;     /* noise cancelling */
    uint64_t ambient; /* ambient */
    uint64_t level;   /* held an ambient level */
};

/* The window becomes one of this width that no report has come to, whatever it was: a width of 0 becomes 1, one above 64 becomes 64. Never
 * refuses: the status is 0. */
uint8_t mdr_window_open(struct mdr_noise_window *window, uint64_t width);

/* [off, anc, ambient, level] of the last reports, the one of this payload included, which mdr_noise reads. The width stays as it is.
 * Refused (25, 26) as mdr_noise refuses, the window stays. */
uint8_t mdr_window_push(struct mdr_noise_window *window, const uint8_t *payload, size_t payload_len, uint64_t *values, size_t values_len);

/* [off, anc, ambient, level] of the last reports. Changes nothing. Never refuses: the status is 0. */
uint8_t mdr_window_counts(const struct mdr_noise_window *window, uint64_t *values, size_t values_len);

/* ---- the log ---- */

#define MDR_PLAN_LEN 512

/* Writes the house plan. A plan names the decoder of each command: the first 256 entries for type 0C, the last 256 for type 0E. */
void mdr_house_plan(uint8_t plan[MDR_PLAN_LEN]);

/* Whether a plan has 512 entries, none above 8. */
bool mdr_plan_fine(const uint8_t *plan, size_t plan_len);

/* [length of the line], 0 where no span is held: a line is never empty. Writes the next span's line to the front of `out`, its newline
 * included, and takes the span as mdr_take does; with no span it does what mdr_take does and leaves `out`. All of `work`, which is no
 * shorter than the store, is zero after both. Refused (1, 2, 3, 5, 6, then 27 where mdr_take is), nothing changes; refused by 7, which is
 * tried last, `work` is zero and nothing else changes. No line depends on the counts.
 *
 * How large an output never refuses: after an accepted mdr_open and any list of pushes and line calls, with a fine plan, a work area as
 * long as the store and an output of four times the store's length, no line call is refused (`never-refused` in crates/log/proofs/Sizes). */
uint8_t mdr_line(struct mdr_scanner *scanner, uint8_t *store, size_t store_len, const uint8_t *plan, size_t plan_len, uint8_t *work,
                 size_t work_len, uint8_t *out, size_t out_len, uint64_t *values, size_t values_len);

/* [length of the lines together], told whatever the status is. Does what calls of mdr_line do, one after the other until one writes no
 * line, each lent the output behind the lines before it; the store is moved once. 0: no span is left. 7: the next line has no room behind
 * those written, and its span is kept. 27: the next line call would carry a count too high; `work` is zero where a line was written before
 * it, else nothing changes. Otherwise (1, 2, 3, 5, 6) nothing changes.
 *
 * With the sizes that never refuse mdr_line the first line has room, so a call refused by 7 has written at least one. */
uint8_t mdr_all_lines(struct mdr_scanner *scanner, uint8_t *store, size_t store_len, const uint8_t *plan, size_t plan_len, uint8_t *work,
                      size_t work_len, uint8_t *out, size_t out_len, uint64_t *values, size_t values_len);

/* [length of the acks together], 0 where none is due. For a listening station: every held span goes, and each that mdr_unpack accepts and
 * whose type is not 01 is acknowledged. The acks, as mdr_ack writes them, stand in the order of the spans at the front of `out`; bytes
 * behind stay. A span that is refused, and an ack, gets none. State, store and counts become those of mdr_take, called until it finds no
 * span. All of `work`, which is no shorter than the store, is zero.
 *
 * Refused (1, 2, 3, 6), nothing changes. Then by 18 where not all the acks fit: nothing is taken, nothing written, and `work` is zero. Then
 * by 27 where the takes together would carry a count too high: nothing changes, nor does `work`.
 *
 * How large an output is never too short: 11 bytes for each 9 of the store, cut to a whole number. With n bytes held there are at most n / 9
 * acks, cut to a whole number, of at most 11 bytes each. */
uint8_t mdr_acknowledge(struct mdr_scanner *scanner, uint8_t *store, size_t store_len, uint8_t *work, size_t work_len, uint8_t *out,
                        size_t out_len, uint64_t *values, size_t values_len);

/* Reads one line of a log, its newline included. [letter, type byte, sequence, payload length, command or 256], the letter being the
 * line's first byte. Of an 'R' line [letter, number of the refusal, 0, 0, 256]. The command is told of an 'H' line alone; of an 'S' or 'F'
 * line the payload comes to stand at the front of `out`, and the bytes behind stay. Of 'R' and 'H' all of `out` stays. Where the
 * plan's entry is 5, mdr_line writes 4294967295 for the length in an 'H' line. An 'S' line with name lengths and a `*` for each byte of a
 * name, as an earlier library wrote it, is read as the frame that it holds, and so is an 'F' line of a battery with a level above 100, whose
 * payload mdr_battery refuses.
 *
 * Refused by 24 unless the line is a letter, a space, digits in capitals and a newline, and no more, and the digits are: for 'R' 08 or 12
 * to 16; for 'H' type, sequence, a length of four bytes, and a command exactly where the length is not 0; for 'S' and 'F' a frame that
 * mdr_unpack accepts and that mdr_pack makes again. No plan is asked. Then by 18 where the payload does not fit `out`: half of the line's
 * length is enough. Refused, `out` stays. */
uint8_t mdr_read_line(const uint8_t *line, size_t line_len, uint8_t *out, size_t out_len, uint64_t *values, size_t values_len);

/* ---- the bill ----
 *
 * An 'F' line costs four cents, an 'S' line two, 'H' and 'R' lines nothing. The tax is per thousand, from 0 to 1000. */

/* [net, total] in cents, of so many 'F', 'S', 'H' and 'R' lines: `full`, `masked`, `header`, `unread`. The total is the net times
 * 1000 + tax, plus 500, divided by 1000 and cut to a whole cent. Refused by 28 where the tax is above 1000 or a count above 4294967295. */
uint8_t mdr_bill(uint64_t full, uint64_t masked, uint64_t header, uint64_t unread, uint64_t tax, uint64_t *values, size_t values_len);

/* [net, total] of a log's text: what mdr_bill tells of what mdr_count_text counts. Refused by 24 as mdr_count_text is, then by 28 as
 * mdr_bill is. */
uint8_t mdr_bill_text(const uint8_t *text, size_t text_len, uint64_t tax, uint64_t *values, size_t values_len);

/* [full, masked, header, unread]: how many 'F', 'S', 'H' and 'R' lines a log's text has. A line goes up to its newline, which is included;
 * bytes behind the last newline are a line without its end. An empty text has [0, 0, 0, 0]. Refused by 24 where mdr_read_line refuses a line
 * by 24. Of a log in pieces, each cut behind a newline, the counts add up. */
uint8_t mdr_count_text(const uint8_t *text, size_t text_len, uint64_t *values, size_t values_len);

#ifdef __cplusplus
}
#endif

#endif
