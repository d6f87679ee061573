/* Wisavulome: a proved model of contention on one pair (CSMA/CD, bit time by bit time). The C interface.
 *
 * Link with libwisavulome (`make install`), or with libcapi.a (`tools/staticlib` writes target/staticlib/libcapi.a). wisavulome.rs, beside
 * this file, declares the same functions for Rust: a change to one is made in both, and tools/check-interface compares them.
 *
 * C89, C++17 and later take this file. Between the two lines "declarations" stand only numbers and prototypes: cffi's parser takes that
 * part, which `make install` puts beside this file as wisavulome.cdef.
 *
 * Every function returns one number of 32 bits. 0x80000000 + n is refusal n, anything below is the answer (wisavulome_crc32: all 32 bits
 * are the answer). With a refusal every lent buffer keeps what it held. No call keeps a pointer, allocates or fails in any other way: any
 * octets and numbers are taken. A slice is a pointer and its length in octets (of uint32_t: in numbers); the pointer is not NULL, also where
 * the length is 0, and a buffer that is written is lent to that call alone.
 *
 * What is written into `out` are numbers of four octets, high octet first, unless it says otherwise. Octets past what is written stay.
 * An address is the low 48 bits of its number: 0x020000000001 is 02-00-00-00-00-01.
 *
 * Refusals: 1 the work area is too short; 2 it holds what no call would leave; 3 the sheet is too short; 4 map bit 7 stands; 5 a field is
 * out of range, or the excess bits are over 7; 6 N is outside 2..16; 7 positions do not rise; 8 an address is a group's or repeats; 9 D or
 * the draws; 10 no such station; 11 the data or the length/type value; 12 the station still has a frame; 13 the clock would pass
 * 16,777,216; 14 no readable frame; 15 the lent output or store is too short; 16 the plan is over 16,384 octets, is short, has octets left
 * over, over 64 offers, or offer times that fall; over 64 windows. They are checked in this order (a run input makes check 13 last). 17 no
 * mark of that name; 18 four others stand; a mark checks 1, 2, 15, 18 in this order, a return 1, 15, 17, 2. Of windows over a log: 20 a
 * window's second time is below its first; 21 the times of the entries fall.
 */
#ifndef WISAVULOME_H
#define WISAVULOME_H

#include <stddef.h>
#include <stdint.h>

#ifdef __cplusplus
extern "C" {
#endif

/* ---- declarations begin */

/* the version of this interface; the area format changes where a work area of one version is not one of the other */
#define WISAVULOME_VERSION_MAJOR 0
#define WISAVULOME_VERSION_MINOR 1
#define WISAVULOME_VERSION_PATCH 0
#define WISAVULOME_AREA_FORMAT 2

/* set in a reply that is a refusal; the other bits are its number */
#define WISAVULOME_REFUSAL 0x80000000u

/* the octets of a work area, of a store of four marks, and of what the calls write into `out` */
#define WISAVULOME_AREA 57344
#define WISAVULOME_STORE 229412
#define WISAVULOME_SHEET_OUT 196
#define WISAVULOME_WRITE_OUT 128
#define WISAVULOME_CLIENT_OUT 8
#define WISAVULOME_STEP_OUT 256
#define WISAVULOME_RUN_OUT 52
#define WISAVULOME_COUNTERS_OUT 68
#define WISAVULOME_STATION_OUT 64
#define WISAVULOME_FRAME_OUT 1522
#define WISAVULOME_PLAN_OUT 216
#define WISAVULOME_PIECE_OUT 2048

/* the octets of where a run stands */
#define WISAVULOME_PROGRESS 16

/* the octets of a log's entry, the numbers of a window and of its answer, and the most windows */
#define WISAVULOME_LOG_ENTRY 6
#define WISAVULOME_WINDOW 3
#define WISAVULOME_WINDOW_OUT 10
#define WISAVULOME_MAX_WINDOWS 64

/* the statuses of a frame */
#define WISAVULOME_FRAGMENT 0
#define WISAVULOME_FRAME_TOO_LONG 1
#define WISAVULOME_FRAME_CHECK_ERROR 2
#define WISAVULOME_ALIGNMENT_ERROR 3
#define WISAVULOME_LENGTH_ERROR 4
#define WISAVULOME_RECEIVE_OK 5

/* transmit events: collision and late with the bit, sent, given-up and late-end with the attempts */
#define WISAVULOME_NO_TRANSMIT 0
#define WISAVULOME_COLLISION 1
#define WISAVULOME_LATE 2
#define WISAVULOME_SENT 3
#define WISAVULOME_GIVEN_UP 4
#define WISAVULOME_LATE_END 5

/* receive events: ok with the octets of client data, the others with the whole octets collected */
#define WISAVULOME_NO_RECEIVE 0
#define WISAVULOME_GOT_OK 1
#define WISAVULOME_GOT_TOO_LONG 2
#define WISAVULOME_GOT_ALIGNMENT 3
#define WISAVULOME_GOT_CHECK 4
#define WISAVULOME_GOT_LENGTH 5

/* the answer of wisavulome_margin where the layout does not fit: past every margin */
#define WISAVULOME_NO_MARGIN 256

/* a station's deference */
#define WISAVULOME_QUIET 0
#define WISAVULOME_BUSY 1
#define WISAVULOME_GAP 2

/* a station's transmitter: ENDING jams after a late collision that closes the frame */
#define WISAVULOME_NO_FRAME 0
#define WISAVULOME_WAITING 1
#define WISAVULOME_BACKING_OFF 2
#define WISAVULOME_SENDING 3
#define WISAVULOME_HEADING 4
#define WISAVULOME_JAMMING 5
#define WISAVULOME_ENDING 6

/* a station's receiver */
#define WISAVULOME_LISTENING 0
#define WISAVULOME_READABLE 1
#define WISAVULOME_SEEKING 2
#define WISAVULOME_COLLECTING 3

/* what a station hears: spoiled is a jam bit, or any symbol from two or more */
#define WISAVULOME_HEARS_NOTHING 0
#define WISAVULOME_HEARS_ZERO 1
#define WISAVULOME_HEARS_ONE 2
#define WISAVULOME_HEARS_SPOILED 3

/* Reads a sheet. Answer: the octets used; more may follow. Refusals 3 to 8, 15 (under 196 octets).
 * out: slot, gap1, gap2, jam, attempt limit, backoff limit, N, fits (0 or 1); then for each of 16 places position (4 octets) and address
 * (6 octets), from octet 32 + 10 i on; places N and up are zeros; then, at octet 192, late-end: 0 where a late collision is retried, 1
 * where it closes the frame. */
uint32_t wisavulome_read_sheet(const uint8_t *sheet, size_t sheet_len, uint8_t *out, size_t out_len);

/* Whether the layout of a sheet fits. Answer: 0 or 1. Refusals 3 to 8. */
uint32_t wisavulome_fits(const uint8_t *sheet, size_t sheet_len);

/* How far the last tap may move outward so that the layout of a sheet still fits. Answer: so many bit times, 0 to 254: it fits exactly up to
 * there; 256 where it does not fit as it is, and then it fits nowhere farther out either. Refusals 3 to 8. */
uint32_t wisavulome_margin(const uint8_t *sheet, size_t sheet_len);

/* Checks a layout, given as the octets that wisavulome_read_sheet writes. Answer: 0. Refusals 3 (under 196 octets), 5 to 8. Whether it fits
 * (the eighth word) is not looked at. */
uint32_t wisavulome_check_layout(const uint8_t *layout, size_t layout_len);

/* Writes the shortest sheet that reads as the layout of this one; octets after the sheet do not matter. Answer: its octets, at most 128.
 * Refusals 3 to 8, 15 (under those octets). out: the sheet. Two sheets that say the same give the same octets. */
uint32_t wisavulome_write_sheet(const uint8_t *sheet, size_t sheet_len, uint8_t *out, size_t out_len);

/* Reads a run input: sheet, draws, offers, bit times. Answer: 0. Refusals 3 to 9, 13, 16, and after them 15 (under 216 octets).
 * out: the layout as wisavulome_read_sheet writes it, 196 octets; then D, the octet at which the draws begin, the number of offers, the octet
 * at which the first offer begins, the bit times. */
uint32_t wisavulome_read_plan(const uint8_t *input, size_t input_len, uint8_t *out, size_t out_len);

/* Builds a frame from destination, source, length/type value and data. Answer: the octets of the frame, 64 to 1522. Refusals 11, 15.
 * out: the frame with its check sequence. */
uint32_t wisavulome_build(uint64_t destination, uint64_t source, uint16_t value, const uint8_t *payload, size_t payload_len,
                          uint8_t *out, size_t out_len);

/* The status of a frame's octets and 0 to 7 excess bits. Answer: 0 fragment, 1 frameTooLong, 2 frameCheckError, 3 alignmentError,
 * 4 lengthError, 5 receiveOK. Refusal 5. */
uint32_t wisavulome_status(const uint8_t *frame, size_t frame_len, uint32_t excess);

/* The status of a reception: as wisavulome_status, but where spoiled is not 0 the check is wrong (a jam bit, or a symbol heard from two or
 * more). Answer and refusal as there. */
uint32_t wisavulome_reception_status(const uint8_t *frame, size_t frame_len, uint32_t excess, uint32_t spoiled);

/* The status, and where the client data lie in the frame. Answer: the status. Refusals 5, 15 (under 8 octets).
 * out: the octet of the frame at which the client data begin, and how many octets they are; 14 and 0 for an empty part, 0 and 0 where the
 * status is not receiveOK. */
uint32_t wisavulome_client_data(const uint8_t *frame, size_t frame_len, uint32_t excess, uint8_t *out, size_t out_len);

/* A fresh start of a work area, of at least 57344 octets, on the layout of a sheet, with D (1 to 16) draws for each station. Answer: 0.
 * Refusals 1, 3 to 8, 9. draws: N x D numbers of 2 octets, high octet first, station by station; any other length is refused under 9. */
uint32_t wisavulome_start(uint8_t *area, size_t area_len, const uint8_t *sheet, size_t sheet_len, uint32_t depth,
                          const uint8_t *draws, size_t draws_len);

/* Checks a work area: whether the calls on it would refuse it under 1 or 2. Answer: 0. Refusals 1, 2. */
uint32_t wisavulome_check_area(const uint8_t *area, size_t area_len);

/* Offers a frame to a station (counted from 0): destination, length/type value, data. Answer: 0. Refusals 1, 2, 10, 11, 12. */
uint32_t wisavulome_offer(uint8_t *area, size_t area_len, uint32_t station, uint64_t destination, uint16_t value,
                          const uint8_t *payload, size_t payload_len);

/* One bit time. Answer: 0. Refusals 1, 2, 13, 15 (under 256 octets).
 * out: for each of 16 stations, from octet 16 i on: transmit event, its number, receive event, its number. */
uint32_t wisavulome_step(uint8_t *area, size_t area_len, uint8_t *out, size_t out_len);

/* A run of n bit times. Where late-end is 0 it ends early after the first step in which a station has a late collision; where it is 1 all
 * steps are made. Answer: the steps made. Refusals 1, 2, 13, 15 (under 52 octets).
 * out: how many events of each word came (collision, late, sent, given-up, late-end, got ok, got too-long, got alignment, got check, got
 * length); then 0 where all steps were made, or 1 where the run ended early; the step of the run (counted from 0) with the late collision;
 * its station. The last two are 0 where all steps were made. */
uint32_t wisavulome_run(uint8_t *area, size_t area_len, uint32_t n, uint8_t *out, size_t out_len);

/* The same run, made step by step: the reference, which is slower. It answers, refuses and writes what wisavulome_run does. */
uint32_t wisavulome_run_stepwise(uint8_t *area, size_t area_len, uint32_t n, uint8_t *out, size_t out_len);

/* Reads the frame that a station received, whole with its check sequence. Answer: its octets, 64 to 1522. Refusals 1, 2, 10, 14, 15.
 * out: the frame. */
uint32_t wisavulome_read_frame(const uint8_t *area, size_t area_len, uint32_t station, uint8_t *out, size_t out_len);

/* The counters of a station. Answer: 0. Refusals 1, 2, 10, 15 (under 68 octets).
 * out: offered, attempts, collisions, late, sent, sent after one collision, sent after several, octets sent, deferred, excessive, received,
 * octets received, too-long, check, alignment, length, late-ended. */
uint32_t wisavulome_counters(const uint8_t *area, size_t area_len, uint32_t station, uint8_t *out, size_t out_len);

/* The state of a station, which it has after the last step. Answer: 0. Refusals 1, 2, 10, 15 (under 64 octets).
 * out: deference; 1 where the station itself emitted in the busy stretch, or 0; the quiet bits counted in a gap; transmitter; its number (the
 * steps of backoff left, the next bit of the packet or header, the jam bits left); receiver; its number (the octets of the readable frame, the
 * row of clean symbols, the bits collected); 1 where a symbol of the reception was spoiled; 1 where the station itself emitted in it; the
 * octets of the frame that it holds; its attempts; the place of the next draw; 1 where the frame was deferred; 1 where the station emitted in
 * the last step; what it hears in the next step; the clock. A number that a state does not use is 0. */
uint32_t wisavulome_station(const uint8_t *area, size_t area_len, uint32_t station, uint8_t *out, size_t out_len);

/* Marks in a store, of at least 229412 octets, all 0 at first: four places of 57353 octets, each an octet that is 1 where the mark stands, the
 * name and the work area. A name is a number of 64 bits, its eight octets high octet first; where it stands twice the first counts. Of a longer
 * area, or store, the octets past those counted here are neither read nor written.
 * mark: the area under a name, over the mark of that name that stands, or else at the first place whose octet is not 1. Answer: 0. Refusals 1, 2,
 * 15 (the store), 18. return: the area marked under a name put back. Answer: 0. Refusals 1 (the length of the area alone), 15 (the store), 17, 2
 * (the area that is marked). drop: that octet becomes 0, and nothing else. Answer: 0. Refusals 15 (the store), 17. */
uint32_t wisavulome_mark(const uint8_t *area, size_t area_len, uint8_t *store, size_t store_len, uint64_t name);
uint32_t wisavulome_return(uint8_t *area, size_t area_len, const uint8_t *store, size_t store_len, uint64_t name);
uint32_t wisavulome_drop(uint8_t *store, size_t store_len, uint64_t name);

/* What is printed for a run input, piece by piece: wisavulome_begin makes a fresh start and hands out the first piece, wisavulome_advance each
 * piece after it, until the fourth word of progress is not 0. Answer: the octets of the piece, 0 to 2048. Refusals of begin: 1, 15 (out under
 * 2048 octets, progress under 16); of advance: 1, 2, 13, 15, 16 (the next offer does not lie within the first 16,384 octets of the input); where
 * progress is under 16 octets 13 and 16 are not asked.
 * out: the piece. progress, written by begin, read and written by advance: the octet of the input at which the next offer begins, the offers
 * left, the bit times left, 1 where the last line is handed out or 0; any octets are taken. */
uint32_t wisavulome_begin(const uint8_t *input, size_t input_len, uint8_t *area, size_t area_len, uint8_t *progress, size_t progress_len,
                          uint8_t *out, size_t out_len);
uint32_t wisavulome_advance(const uint8_t *input, size_t input_len, uint8_t *area, size_t area_len, uint8_t *progress, size_t progress_len,
                            uint8_t *out, size_t out_len);

/* All that is printed for a run input. Answer: the octets of the text. Refusals 1, 15 (out is shorter than the text, or the text has more than
 * 2,147,483,647 octets). The run is made twice: once on an area of the call's own, to know the text's octets.
 * out: the text. area: what the run leaves; as it was where the text is `refused n`. */
uint32_t wisavulome_print(const uint8_t *input, size_t input_len, uint8_t *area, size_t area_len, uint8_t *out, size_t out_len);

/* Many windows over one log: how many events of each word every window holds. Answer: 0. Refusals 5 (an entry's event is none of 1 to 10), 10 (a
 * window's or an entry's station is `stations` or more), 16 (over 64 windows), 20, 21, and after them 15 (out has under 10 numbers a window).
 * log: 6 octets an entry: time (4, high octet first), station, event (1 collision, 2 late, 3 sent, 4 given-up, 5 late-end, 6 got ok, 7 got
 * too-long, 8 got alignment, 9 got check, 10 got length); octets after the last whole entry are not looked at. windows: 3 numbers a window:
 * station, first time, time past the last; numbers after the last whole window are not looked at.
 * out, numbers of C: for each window how many events of each word it holds, in that order; a count stops at 4,294,967,295. */
uint32_t wisavulome_windows(const uint8_t *log, size_t log_len, uint32_t stations, const uint32_t *windows, size_t windows_len,
                            uint32_t *out, size_t out_len);

/* The CRC-32 of octets: all 32 bits are the answer. That of "123456789" is 0xCBF43926. */
uint32_t wisavulome_crc32(const uint8_t *payload, size_t payload_len);

/* ---- declarations end */

#ifdef __cplusplus
}
#endif

#endif
