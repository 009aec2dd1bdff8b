/* Cablesound: reads and writes MACM, the GNSS range message of RCC 264-04 (old form) and 264-21 (new form), and the range record of RANGECMP, NovAtel's
 * compressed range log.
 *
 * Every function takes all inputs and ends. A refusal is a number of the table below, 0 for none; a refused call changes no byte that was lent, nor
 * the state, and every other number that it answers is 0. Nobody has to check anything first.
 *
 * A buffer is lent for the call alone, as a pointer that is not NULL, also where its length is 0, and that many bytes or numbers. Buffers of one call must
 * not overlap each other or the state. Nothing is kept between calls but what the caller keeps: two threads may use two states at once.
 */
#ifndef CABLESOUND_H
#define CABLESOUND_H

#include <stddef.h>
#include <stdint.h>

#ifdef __cplusplus
extern "C" {
#endif

/* The longest message, which window and output must hold at least; the longest of the old form; the most observations; the longest stream. */
#define CS_LONGEST 6136
#define CS_LONGEST_OLD 6135
#define CS_OBSERVATIONS 255
#define CS_STREAM_BYTES (UINT64_C(1) << 48)

/* The bytes of a RANGECMP record. */
#define CS_RANGECMP_BYTES 24

/* The words of a history of lock, and the numbers that a list of breaks must hold at least: three for each of CS_OBSERVATIONS. */
#define CS_HISTORY_WORDS 769
#define CS_BREAKS_NUMBERS 765

/* Refusals. Where several hold, a call answers the one that its own comment names first. */
enum {
    CS_TOO_SHORT = 1,      /* fewer than 15 bytes */
    CS_NO_SYNC = 2,        /* the first four bytes are neither sync string */
    CS_WRONG_LENGTH = 3,   /* the length is not the one that form and count byte require */
    CS_BAD_CHECKSUM = 4,   /* the checksum is wrong */
    CS_NO_OBSERVATION = 5, /* no observation has this index */
    CS_NO_ROOM = 6,        /* the output is too short for the message or the record */
    CS_WRONG_FORM = 7,     /* a conversion from the wrong form, or to the old form with TYPE other than 0 */
    CS_SMALL_BUFFER = 8,   /* window or output shorter than CS_LONGEST; a list of breaks shorter than CS_BREAKS_NUMBERS */
    CS_BAD_STATE = 9,      /* a state with held above CS_LONGEST, total above CS_STREAM_BYTES, gap + held above total, or summed above 2^60 */
    CS_ENDED = 10,         /* feeding after the first accepted finish */
    CS_TOO_LONG = 11,      /* the stream would be longer than CS_STREAM_BYTES */
    CS_PAST_THE_END = 12,  /* cs_next: the start is past the recording's end; cs_why: the position is at the end or past it */
    CS_OTHER_LENGTH = 13,  /* a RANGECMP record of another length than CS_RANGECMP_BYTES */
    CS_OTHER_SIGNAL = 22,  /* a corrected ADR of another signal than GPS L1 C/A */
    CS_TOO_WIDE = 23       /* a number that its field cannot hold */
};

/* The form of a message. */
enum { CS_OLD = 1, CS_NEW = 2 };

/* The kind of an answer. cs_found has the last two alone. */
enum { CS_NEEDS_MORE = 0, CS_MESSAGE = 1, CS_END = 2 };

/* The kind of a reason, in the order in which they are tried: the first that holds is answered. 7 is kept free for a count above a cap, which will stand
 * behind CS_SYNC in that order. */
enum {
    CS_INSIDE = 1,      /* the position lies inside a given message, behind its first byte; value: where that message begins */
    CS_GIVEN = 2,       /* a message is given here; value: its length */
    CS_SYNC = 3,        /* a byte of the sync fits neither form; value: the first such byte, 1 to 4 */
    CS_CUT_UNKNOWN = 4, /* the recording ends before the count byte; value: 0, since nobody knows how many bytes are missing */
    CS_CUT_SHORT = 5,   /* the recording ends before the message does; value: how many bytes are missing, at least 1 */
    CS_CHECKSUM = 6     /* the checksum is off; value: the exclusive or of byte 5 up to and with the checksum, never 0 */
};

/* The kind of a phase, in the order in which they are tried. The first two have no cycles. The others have the double with PHASE's bits, to which nothing
 * was added: what the polarity code in CONDITION asks for is left to who computes with the cycles. Whether half a cycle is to be added or taken away
 * 264-21 does not say; the two differ by a whole cycle, so keep to one of them as long as a lock lasts. */
enum {
    CS_WITHHELD = 0,          /* the old form, or CONDITION's bit 2 is clear: there is no phase to take */
    CS_NOT_FINITE = 1,        /* PHASE is an infinity or a NaN: there is no phase to take */
    CS_POLARITY_UNKNOWN = 2,  /* code 0: nobody knows whether half a cycle is due: reckon with both */
    CS_NOT_CORRECTED = 3,     /* code 5: not corrected since lock, when it was correct: nothing is due */
    CS_DUE_HALF = 4,          /* code 7: correct now, and half a cycle is due, which is not in the cycles: adjust them, once */
    CS_POLARITY_UNDEFINED = 5 /* code 1 to 4 or 6, which 264-21 does not define: do as with an unknown one */
};

/* Which of the two breaks. */
enum {
    CS_CLOCK_BACK = 1, /* the time is lower than where the SID was last seen, as at the end of a GNSS week */
    CS_NEW_LOCK = 2    /* it is not, and the lock count is lower */
};

/* One reader's state. Keep it for the whole stream and write nothing into it; cs_fresh gives a new one. ended is 0, or anything else.
 *
 * summed is for those who schedule: the bytes run through the checksum so far, in the end the same however the stream is cut. A stream costs at most
 * 6,131 of them for every 3 bytes behind its first; one crowded with false starts comes to about half of that. Each sync string that no earlier
 * message covers counts once, when all of its message has come, right or wrong: the message's length less 5. */
typedef struct { uint64_t held, gap, total, ended, summed; } cs_state;

/* What a stream call answers: the kind; with CS_MESSAGE the length of the message at the front of the output and the gap bytes before it; with CS_END
 * the gap bytes behind the last message; and how many bytes of the piece were taken, which is all of it with CS_NEEDS_MORE. */
typedef struct { uint64_t refusal, kind, length, gap, taken; } cs_answer;

/* What cs_next answers: the message's place in the whole recording, its length, the gap bytes before it; at the end the gap bytes that are left. */
typedef struct { uint64_t refusal, kind, position, length, gap; } cs_found;

/* What cs_why answers: the kind of the reason and its value. */
typedef struct { uint64_t refusal, kind, value; } cs_reason;

/* A header. version is the old form's alone, signal (TYPE) and tfom the new form's; cs_read_header answers 0 for the other form's. time is in GNSS
 * milliseconds; offset is OFFSET's 32 bits, a binary32 in metres. */
typedef struct { uint64_t form, version, signal, tfom, time, offset; } cs_header;

/* An observation. phase is PHASE's 64 bits (cs_phase shows it), lock counts 2 ms (cs_lock_ms). */
typedef struct {
    uint64_t sid, condition, cn0, phase, pseudorange;
    int64_t rate;
    uint64_t lock;
} cs_observation;

/* What cs_read_header answers: how many observations the message has, and its header. */
typedef struct { uint64_t refusal, count; cs_header header; } cs_head;

/* What cs_read_observation answers. */
typedef struct { uint64_t refusal; cs_observation observation; } cs_observed;

/* What a writing call answers: the length of the message or the record at the front of the output. */
typedef struct { uint64_t refusal, length; } cs_written;

/* What cs_breaks answers: how many breaks stand at the front of the list. */
typedef struct { uint64_t refusal, count; } cs_listed;

/* A phase: its kind and, where it has cycles, the polarity code, 0 to 7, and the cycles; else 0. */
typedef struct { uint64_t kind, code; double cycles; } cs_cycles;

/* A plot row: range in metres, rate in hertz. */
typedef struct { double range, rate; } cs_row;

/* A RANGECMP record, in the log's own steps: status is the tracking status; doppler in 1/256 Hz; range in 1/128 m; adr in 1/256 cycle, with its rolls
 * still in it; the deviations' codes, 0 to 15 (cs_rangecmp_range_mm, cs_rangecmp_adr_512ths); lock in 1/32 s; cn0 in dB-Hz, 20 to 51, where 20 may be
 * less and 51 more; reserved is the 22 bits at the end. refusal is what cs_rangecmp_read answers, and writing does not look at it. */
typedef struct {
    uint64_t refusal, status;
    int64_t doppler;
    uint64_t range;
    int64_t adr;
    uint64_t range_deviation, adr_deviation, prn, lock, cn0, reserved;
} cs_rangecmp;

/* A corrected ADR: how often the ADR has rolled over 2^23 cycles, and the ADR less its rolls, in 1/256 cycle. */
typedef struct { uint64_t refusal; int64_t rolls, adr; } cs_adr;

/* Whether these bytes are exactly one message: 0, or 1 to 4. */
uint64_t cs_check(const uint8_t *message, size_t length);

/* The header and the count of observations of exactly one message. Refuses with 1 to 4. */
cs_head cs_read_header(const uint8_t *message, size_t length);

/* The observation at this index of exactly one message. Refuses with 1 to 4, then 5: of a message without observations every index. */
cs_observed cs_read_observation(const uint8_t *message, size_t length, size_t index);

/* Writes a message with this header and count zero observations at the front of the output; every byte behind it stays. Refuses with 6. Of each
 * number in the header the low bits go into its field; a form other than CS_OLD is the new form. */
cs_written cs_start(uint8_t *output, size_t output_length, cs_header header, uint8_t count);

/* Replaces the observation at this index, and the checksum, in exactly one message; every other byte stays. Answers 0, or 1 to 4, then 5. Of each
 * number in the observation the low bits go into its field. */
uint64_t cs_set(uint8_t *message, size_t length, size_t index, cs_observation observation);

/* The old message with this TYPE and TFOM as a new one, at the front of the output; every byte behind it stays. Refuses with 1 to 4, 7, 6. */
cs_written cs_to_new(const uint8_t *message, size_t length, uint8_t signal, uint8_t tfom, uint8_t *output, size_t output_length);

/* The new message, of TYPE 0, with this VERSION as an old one, at the front of the output; every byte behind it stays. Refuses with 1 to 4, 7, 6. */
cs_written cs_to_old(const uint8_t *message, size_t length, uint8_t version, uint8_t *output, size_t output_length);

/* The next message at or behind the start, in a recording that is all there. Start at 0, then at position + length. Refuses with 12. */
cs_found cs_next(const uint8_t *recording, size_t length, size_t start);

/* Why a position of a recording that is all there is the first byte of a given message, or is not. Refuses with 12, also a position equal to the length,
 * though cs_next takes such a start: no byte stands there. Every call goes over the recording from its front. Of many positions, find the messages with
 * cs_next and ask of a byte between them with the recording from that byte on, at position 0: what is said of it depends on the bytes from it on alone. */
cs_reason cs_why(const uint8_t *recording, size_t length, size_t position);

/* A new reader's state. The window needs nothing in it. */
cs_state cs_fresh(void);

/* Feeds the next piece of the stream, which may be empty. Window and output have CS_LONGEST bytes or more; the window belongs to the state, and nobody
 * else writes it between calls. It takes the fewest bytes that settle the next message. With CS_MESSAGE the message is at the front of the output and
 * every byte behind it stays: offer the piece again from taken on. With CS_NEEDS_MORE the output stays as it was: feed the next piece. After both the
 * bytes held stand at the front of the window, with zeros behind them to its end. Refuses with 8, 9, 10, 11.
 *
 * In flight: 9 says that the state was overwritten, since no stream sums 2^60 bytes, so take a new one with cs_fresh and go on; what the window held
 * is lost. 10 says that the stream was finished: a new stream needs a new state. 11 says that the state has counted 2^48 bytes: finish it, and go on
 * with a new one. */
cs_answer cs_feed(cs_state *state, const uint8_t *piece, size_t piece_length, uint8_t *window, size_t window_length, uint8_t *output,
                  size_t output_length);

/* Says that the stream is over, and gives the messages that are still held, one a call, until it answers CS_END; after that it answers the same end
 * each time. It leaves window and output as cs_feed does; at the end the output stays as it was and the window is all zeros. Refuses with 8, 9. */
cs_answer cs_finish(cs_state *state, uint8_t *window, size_t window_length, uint8_t *output, size_t output_length);

/* Begins a history of lock for the messages of this TYPE: all of its CS_HISTORY_WORDS words are written. The first is TYPE; then SID s has three, from
 * 1 + 3 s on: 0 where it was not seen yet, 1 where it was; the last time; the last lock count. */
void cs_breaks_fresh(uint64_t history[CS_HISTORY_WORDS], uint8_t signal);

/* Lists the breaks in exactly one message, and keeps in the history what the next message is held against: give it the messages of a recording in their
 * order, and nobody else writes the history between calls. Observations are taken in order, within one message too: at each later appearance of a SID a
 * lower time is CS_CLOCK_BACK, else a lower lock count CS_NEW_LOCK, else there is no break; in every case the SID's last time and lock count are replaced.
 * A break is three numbers of the list: the SID, the time of the message, and which of the two; every number behind the breaks stays. A message of the old
 * form or of another TYPE has none, and the history stays. Refuses with 1 to 4, then 8, also a message that would be passed over. list_length counts
 * numbers. Whatever words the history has are taken: any word but 0 is seen, and times and counts are compared as the words that they are. */
cs_listed cs_breaks(const uint8_t *message, size_t length, uint64_t history[CS_HISTORY_WORDS], uint64_t *list, size_t list_length);

/* The range in micrometres of a pseudorange as PR has it: PR times 149896229, plus 7,500, divided by 15,000, rounded down. That is as far as light goes
 * in PR at 299792458 m/s, to the nearest. Before version 1.2 it went by the standards' printed factor and was 3.3 parts in 10^10 low. */
uint64_t cs_range_um(uint32_t pseudorange);

/* The milliseconds since lock of a lock count as LOCKTIME has it. */
uint64_t cs_lock_ms(uint32_t lock);

/* The phase of an observation in a message of this form (CS_OLD, or else the new form): the form and the flag decide first, then whether it is finite,
 * then the polarity. */
cs_cycles cs_phase(uint64_t form, cs_observation observation);

/* The plot row of a pseudorange and a rate as PR and RATE have them: within 4 nm of the range that cs_range_um answers, and within 2/10^11 Hz. */
cs_row cs_plot_row(uint32_t pseudorange, int32_t rate);

/* The RANGECMP record in exactly these bytes. Refuses with 13. */
cs_rangecmp cs_rangecmp_read(const uint8_t *record, size_t length);

/* Writes a RANGECMP record at the front of the output; every byte behind it stays. Refuses with 23, then 6: a number that is wider than its field is
 * refused here and not cut, a C/N0 below 20 or above 51 among them. A record that was read is written as the same bytes. */
cs_written cs_rangecmp_write(uint8_t *output, size_t output_length, cs_rangecmp record);

/* The corrected ADR of the RANGECMP record in exactly these bytes. The rolls are the whole number nearest to (range / wavelength + ADR) / 2^23 cycles at
 * L1's wavelength, 0.1902936727984 m, halves away from zero: by whole numbers, without a rounding on the way. Refuses with 13, then 22 unless the status
 * says GPS L1 C/A: its bits 16 to 18 (system) and 21 to 25 (signal) are all 0. */
cs_adr cs_rangecmp_adr(const uint8_t *record, size_t length);

/* What the codes of a record's deviations say, of each the low 4 bits: the range's in millimetres, 50 to 152000, and the ADR's in 1/512 cycle, 1 to 16. */
uint64_t cs_rangecmp_range_mm(uint64_t code);
uint64_t cs_rangecmp_adr_512ths(uint64_t code);

#ifdef __cplusplus
}
#endif

#endif
