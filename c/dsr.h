/* dsr.h: the proved voice-link codec as C functions (ETSI ES 201 108 multiframes), for C99 and C++11 and later.
 *
 * In this order: version, sizes, numbers and their names, how the lent memory is laid out, the proved functions, and over them the
 * functions for daily use, which give a struct. Start with those:
 *   dsr_write_utterance   frames to the octets that are sent
 *   dsr_read_utterance    received octets to frames
 *   dsr_settle_utterance  the first octets of a recording to its sample rate and front end
 *   dsr_hunt_utterance    received bits with no octet boundary to frames
 *   dsr_hunt_multiframe   the first place of a multiframe in such bits
 *   dsr_status_text       what a status says
 *   dsr_octets_for_frames, dsr_index_octets, dsr_report_octets   how many octets to lend
 *   dsr_multiframes_for_frames, dsr_multiframes_in               how many multiframes to lend them for
 *
 * Each function takes any numbers, and slices of any length and content; a slice is a pointer and then a length. Lent memory that a
 * function writes overlaps no other lent memory. Nothing is allocated and nothing is kept between calls: threads may call at once. Every
 * function that can refuse returns 0 (DSR_DONE) if it is done. "01" is the specification that the library follows, "02" the list of its
 * changes; docs/FORMAT.md says both in the project's own words. */
#ifndef DSR_H
#define DSR_H

#include <stddef.h>
#include <stdint.h>

#ifdef __cplusplus
extern "C" {
#endif

/* DSR_VERSION is this header's version as a number that grows, DSR_VERSION_TEXT the same to print. An incompatible change raises the major
 * number; while that is 0, the minor one. */
#define DSR_VERSION_MAJOR 0
#define DSR_VERSION_MINOR 4
#define DSR_VERSION_PATCH 0
#define DSR_VERSION (DSR_VERSION_MAJOR * 10000 + DSR_VERSION_MINOR * 100 + DSR_VERSION_PATCH)
#define DSR_VERSION_TEXT "0.4.0"

/* DSR_MULTIFRAME_OCTETS is the size of a multiframe: sync 2, header 4, feature stream 138. */
#define DSR_MULTIFRAME_OCTETS 144
/* DSR_STREAM_OCTETS is the size of a multiframe's feature stream: twelve pair packets of 92 bits. */
#define DSR_STREAM_OCTETS 138
/* DSR_FRAME_INDICES is the number of index octets of a frame: six below 64, then one of any value. */
#define DSR_FRAME_INDICES 7
/* DSR_MULTIFRAME_FRAMES is the number of frames of a multiframe. */
#define DSR_MULTIFRAME_FRAMES 24
/* DSR_MULTIFRAME_INDICES is the number of index octets of a multiframe's 24 frames. */
#define DSR_MULTIFRAME_INDICES 168
/* DSR_MULTIFRAME_REPORT is the number of report octets of a multiframe: a header note, then twelve pair notes. */
#define DSR_MULTIFRAME_REPORT 13
/* DSR_MULTIFRAME_PAIRS is the number of pair packets of a multiframe. */
#define DSR_MULTIFRAME_PAIRS 12
/* DSR_MOST_MULTIFRAMES is the largest number of multiframes of an utterance. */
#define DSR_MOST_MULTIFRAMES 255
/* DSR_MOST_FRAMES is the largest number of frames that can be written. */
#define DSR_MOST_FRAMES 6119
/* DSR_CODEBOOK_NUMBERS is the length of a codebook. */
#define DSR_CODEBOOK_NUMBERS 1280
/* DSR_THRESHOLD_NUMBERS is the length of the thresholds. */
#define DSR_THRESHOLD_NUMBERS 14
/* DSR_ANSWER_NUMBERS is the length of a reading's answer. */
#define DSR_ANSWER_NUMBERS 6
/* DSR_SETTLE_ANSWER_NUMBERS is the length of a settling's answer: the first three of those. */
#define DSR_SETTLE_ANSWER_NUMBERS 3
/* DSR_BITS_ANSWER_NUMBERS is the length of the answer of a reading that hunts: the six of a reading, then two of its own. */
#define DSR_BITS_ANSWER_NUMBERS 8
/* DSR_MULTIFRAME_BITS is the size of a multiframe in bits, and how many have to be left at the place found. */
#define DSR_MULTIFRAME_BITS 1152
/* DSR_LEAST_MATCH and DSR_MOST_MATCH are the range of `least`, the number of the sync's 16 bits that have to match in a hunt. */
#define DSR_LEAST_MATCH 12
#define DSR_MOST_MATCH 16

/* dsr_status is what every function that can refuse returns: 0 if it is done, or the number of the refusal; beside each refusal stands
 * its place. Numbers from 96 on are this library's own, not 01's or 02's, and have no place. */
enum dsr_status {
    /* DSR_DONE: success. */
    DSR_DONE = 0,

    /* DSR_WRITE_SETTINGS: rate not 0, 1 or 3, or type above 1. Place: 0. */
    DSR_WRITE_SETTINGS = 1,
    /* DSR_WRITE_INDEX_COUNT: index octets no multiple of 7. Place: their number. */
    DSR_WRITE_INDEX_COUNT = 2,
    /* DSR_WRITE_FRAME_COUNT: more than 6,119 frames. Place: frame count. */
    DSR_WRITE_FRAME_COUNT = 3,
    /* DSR_WRITE_INDEX_VALUE: one of the first six indices of a frame above 63. Place: first such frame, from 1; in dsr_pack none. */
    DSR_WRITE_INDEX_VALUE = 4,
    /* DSR_WRITE_ZERO_FRAME: an all-zero frame that is the last, or whose number is a multiple of 24. Place: first such frame, from 1. */
    DSR_WRITE_ZERO_FRAME = 5,
    /* DSR_WRITE_OUTPUT_SHORT: output shorter than 144m. Place: octets needed. */
    DSR_WRITE_OUTPUT_SHORT = 6,

    /* DSR_READ_THRESHOLD: a negative threshold. It comes right behind DSR_READ_TABLES. Place: the first one's number, from 0. */
    DSR_READ_THRESHOLD = 10,
    /* DSR_READ_TABLES: codebook not 1,280 or thresholds not 14. Place: 0. */
    DSR_READ_TABLES = 11,
    /* DSR_READ_UNKNOWN: octets at p begin nothing known. Place: p. */
    DSR_READ_UNKNOWN = 12,
    /* DSR_READ_CUT: sync with too few octets, or a lone last 87 or 78. Place: p. */
    DSR_READ_CUT = 13,
    /* DSR_READ_NO_MULTIFRAME: no multiframe. Place: octet count. */
    DSR_READ_NO_MULTIFRAME = 14,
    /* DSR_READ_TOO_MANY: a sync after 255 multiframes, even a cut one. Place: p. In dsr_read_bits a match after 255 multiframes, a cut
     * one is none. Place: its bit. */
    DSR_READ_TOO_MANY = 15,
    /* DSR_READ_UNSETTLED: settings not settled, as no two readable headers agree in them. An only multiframe is refused so too, unless
     * DSR_ONE_HEADER_SETTLES is asked for and its header is a codeword. In dsr_settle the octets end before anything settles. Place: 0. */
    DSR_READ_UNSETTLED = 16,
    /* DSR_READ_SETTINGS: settled rate is 2 or any EXP is 1. In dsr_settle two headers that agree in it give it at once, whatever stands
     * behind them. Place: 0. */
    DSR_READ_SETTINGS = 17,
    /* DSR_READ_INDEX_SHORT: index buffer under 168m. Place: octets needed. */
    DSR_READ_INDEX_SHORT = 18,
    /* DSR_READ_REPORT_SHORT: report buffer under 13m. Place: octets needed. */
    DSR_READ_REPORT_SHORT = 19,
    /* DSR_READ_ALL_BAD: every pair bad. Place: 0. */
    DSR_READ_ALL_BAD = 20,

    /* DSR_HUNT_MATCH: least outside 12 to 16. Place: least. */
    DSR_HUNT_MATCH = 21,
    /* DSR_HUNT_NOWHERE: no place found by the first hunt. Place: the first bit searched. */
    DSR_HUNT_NOWHERE = 22,

    /* DSR_NO_SUCH_CHOICE: choices is no number of enum dsr_choices. All lent memory stays. */
    DSR_NO_SUCH_CHOICE = 96,
    /* DSR_HEADER_UNREADABLE (dsr_header_read): no codeword differs from the word in at most two bits. */
    DSR_HEADER_UNREADABLE = 97,
    /* DSR_WRONG_LENGTH (dsr_pack, dsr_unpack): a slice has another length than the multiframe's. (The functions that give a struct): a
     * null pointer has a length other than 0, or a length is above SIZE_MAX / 2. */
    DSR_WRONG_LENGTH = 98,
    /* DSR_READ_ANSWER_SHORT: answer shorter than DSR_ANSWER_NUMBERS, in dsr_read_bits than DSR_BITS_ANSWER_NUMBERS, in dsr_settle than
     * DSR_SETTLE_ANSWER_NUMBERS. All lent memory stays. */
    DSR_READ_ANSWER_SHORT = 99
};

/* dsr_rate is the code of a sample rate. 2 is undefined and refused. */
enum dsr_rate {
    DSR_RATE_8_KHZ = 0,
    DSR_RATE_11_KHZ = 1,
    DSR_RATE_16_KHZ = 3,
    /* DSR_RATE_NONE: in the struct of a refused reading, so that a missed refusal does not pass for 8 kHz; to be put into an answer before
     * dsr_read for the same reason. It is never sent. */
    DSR_RATE_NONE = 255
};

/* dsr_front_end is the type of a front end. */
enum dsr_front_end {
    DSR_STANDARD = 0,
    DSR_NOISE_ROBUST = 1
};

/* dsr_choices is what a caller chooses of a reading or a settling: the rule for an only multiframe, in dsr_read_bits one that alone was
 * found. For two multiframes or more the choice changes nothing. Every other number is refused, so that a choice of a later library is
 * never passed over. */
enum dsr_choices {
    /* DSR_DEFAULT_CHOICES: an only multiframe is refused with DSR_READ_UNSETTLED, however clean it is: its codeword can be the wrong one,
     * and no second header is there to show it. */
    DSR_DEFAULT_CHOICES = 0,
    /* DSR_ONE_HEADER_SETTLES: an only multiframe whose header is itself a codeword settles the settings; with mended flips, or lost, it is
     * refused all the same. For whoever has to read one and knows the line, as at a bench. */
    DSR_ONE_HEADER_SETTLES = 1
};

/* dsr_answer is the place of each number in a successful reading's answer; a settling's has the first three. */
enum dsr_answer {
    /* DSR_ANSWER_RATE: the settled sample rate code, 0 = 8 kHz, 1 = 11 kHz, 3 = 16 kHz. */
    DSR_ANSWER_RATE = 0,
    /* DSR_ANSWER_TYPE: the settled front-end type, 0 standard, 1 noise robust. */
    DSR_ANSWER_TYPE = 1,
    /* DSR_ANSWER_MULTIFRAMES: the number of multiframes, m; in dsr_settle of those read. */
    DSR_ANSWER_MULTIFRAMES = 2,
    /* DSR_ANSWER_SPEECH: 24(m-1) plus the place (1 to 24, 0 if none) of the last nonzero frame of the last multiframe, after replacing. */
    DSR_ANSWER_SPEECH = 3,
    /* DSR_ANSWER_BAD: the number of bad pairs. */
    DSR_ANSWER_BAD = 4,
    /* DSR_ANSWER_END: 1 if the last frame is zero after replacing, else 0. */
    DSR_ANSWER_END = 5,
    /* DSR_ANSWER_OUTSIDE (dsr_read_bits only): the number of bits outside the multiframes found, from the first bit searched to the end;
     * inverse syncs and the tail are among them. */
    DSR_ANSWER_OUTSIDE = 6,
    /* DSR_ANSWER_TESTED (dsr_read_bits only): the number of places tested in all hunts together. */
    DSR_ANSWER_TESTED = 7
};

/* dsr_note is what a report octet can hold: a header's flips or its loss, plus the two marks of a readable header; or a pair's note. */
enum dsr_note {
    /* DSR_HEADER_CLEAN: the header is a codeword. 1 and 2 are the flips that were mended. */
    DSR_HEADER_CLEAN = 0,
    /* DSR_HEADER_LOST: no codeword differs from the header in at most two bits. */
    DSR_HEADER_LOST = 3,
    /* DSR_HEADER_COUNTER: added to a readable header's note if its counter is not its position (from 1) modulo 16; in
     * dsr_read_bits its position among the multiframes found. */
    DSR_HEADER_COUNTER = 4,
    /* DSR_HEADER_DIFFERS: added to a readable header's note if its common bits differ from the settled ones. */
    DSR_HEADER_DIFFERS = 8,
    /* DSR_PAIR_GOOD: the pair stands as it was received. */
    DSR_PAIR_GOOD = 0,
    /* DSR_PAIR_CRC: the pair's CRC failed. */
    DSR_PAIR_CRC = 1,
    /* DSR_PAIR_BAD: the pair is bad otherwise: inconsistent, and the next pair's CRC failed or the pair before is bad. */
    DSR_PAIR_BAD = 2
};

/* --- how the lent memory is laid out
 *
 * Indices, lent to be written and given back by a reading: seven octets a frame, frame after frame, frame f (from 0) from octet 7f on.
 * Octet 7f + c is an index into codebook c:
 *
 *   c         0       1       2       3       4        5         6
 *   elements  C1 C2   C3 C4   C5 C6   C7 C8   C9 C10   C11 C12   C0 logE
 *   below     64      64      64      64      64       64        256
 *
 * A reading gives 24 frames for each multiframe; those behind the last frame of speech are padding, seven zeros each.
 *
 * Report, given back by a reading: 13 octets a multiframe, multiframe k (from 0) from octet 13k on: the header note, then twelve pair
 * notes. Octet 13k + 1 + p is the note of frames 24k + 2p and 24k + 2p + 1.
 *
 * Codebook, 1,280 numbers from 0: the seven codebooks one after the other. Codebook c below 6 begins at number 128c and has 64 entries,
 * codebook 6 begins at number 768 and has 256. An entry is two numbers, its elements as above: entry j of codebook c is numbers
 * 128c + 2j and 128c + 2j + 1.
 *
 * Thresholds, 14 numbers from 0: 2c and 2c + 1 are for the two elements of codebook c, in the codebook's scale, none of them negative. From
 * the first frame of a pair to the second an index is flagged if either of its elements differs by more than its threshold, upward or
 * downward; the difference is the exact one, which may need 33 bits. At least two flagged indices make a pair inconsistent, and an
 * inconsistent pair is bad if the next pair's CRC fails or the pair before it is bad. With all 1,280 and 14 numbers 0 no pair is
 * inconsistent. */

/* --- the proved functions
 *
 * Here no pointer is null, even for a length of 0. */

/* DSR_MUST_USE: gcc and clang warn if what the function returns is dropped. */
#if defined(__GNUC__) || defined(__clang__)
#define DSR_MUST_USE __attribute__((warn_unused_result))
#else
#define DSR_MUST_USE
#endif

/* dsr_header_encode gives the codeword of a message: the message in bits 0 to 15 and P1 to P16 in bits 16 to 31, first sent bit least
 * significant. */
uint32_t dsr_header_encode(uint16_t message);

/* dsr_header_read reads a received header: DSR_DONE if a codeword differs from word in at most two bits, and then *message is its message
 * and *flips that number of bits; DSR_HEADER_UNREADABLE if no codeword does (lost), and then both stay as they came. Three flips are never
 * mended. */
DSR_MUST_USE uint32_t dsr_header_read(uint32_t word, uint16_t *message, uint32_t *flips);

/* dsr_pack packs the 24 frames of a multiframe (168 index octets) into its feature stream (138 octets), with the CRCs: DSR_DONE; or, and
 * nothing is touched, DSR_WRONG_LENGTH, or DSR_WRITE_INDEX_VALUE if one of the first six indices of a frame is above 63. Neither has a
 * place here. */
DSR_MUST_USE uint32_t dsr_pack(const uint8_t *indices, size_t indices_len, uint8_t *stream, size_t stream_len);

/* dsr_unpack takes a feature stream (138 octets) apart into 168 index octets and twelve notes (0 right, 1 CRC failed): DSR_DONE; or
 * DSR_WRONG_LENGTH, and nothing is touched. */
DSR_MUST_USE uint32_t dsr_unpack(const uint8_t *stream, size_t stream_len, uint8_t *indices, size_t indices_len, uint8_t *notes,
                                 size_t notes_len);

/* dsr_write writes an utterance: DSR_DONE, and *place is the number of octets written (octets of out beyond them stay); or a refusal,
 * 1 to 6, the first that applies, and *place is its place and no octet of out is touched. Rate and type are numbers of 64 bits, so that
 * none is cut to a right one on its way: 256 and -1 are refused. */
DSR_MUST_USE uint32_t dsr_write(uint64_t rate, uint64_t type, const uint8_t *indices, size_t indices_len, uint8_t *out, size_t out_len,
                                uint64_t *place);

/* dsr_read reads received octets: DSR_DONE, and answer holds the six numbers of enum dsr_answer, index the first 168m octets and report
 * the first 13m (octets beyond them stay, numbers beyond the sixth too), and *place stays; or a refusal, 10 to 20, the first that applies:
 * 11 comes first, then 10, then the others; and *place is its place and answer, index and report stay as they came. Lend an answer of
 * DSR_ANSWER_NUMBERS numbers; fewer are refused before all else with DSR_READ_ANSWER_SHORT, and choices that are no number of enum
 * dsr_choices next with DSR_NO_SUCH_CHOICE; then *place stays too. The choices are a number of 64 bits, so that none is cut to a right one
 * on its way.
 * An answer that is used again still holds the last success: look at the number returned. Put DSR_RATE_NONE into
 * answer[DSR_ANSWER_RATE] before each call, and a refusal that was missed does not pass for a rate. */
DSR_MUST_USE uint32_t dsr_read(const uint8_t *octets, size_t octets_len, uint64_t choices, const int32_t *codebook, size_t codebook_len,
                               const int32_t *thresholds, size_t thresholds_len, uint8_t *index, size_t index_len, uint8_t *report,
                               size_t report_len, uint64_t *answer, size_t answer_len, uint64_t *place);

/* dsr_settle reads multiframes only until their settings are settled, and stops there: for whoever has to choose by rate and type while the
 * rest is still being recorded. The octets behind the settling multiframe are not looked at, and no CRC is tried.
 *   DSR_DONE   answer holds the first three numbers of enum dsr_answer, rate, type and the multiframes read (numbers beyond them stay), and
 *              *place stays. Rate and type are those of dsr_read, whenever it succeeds on these octets, or on more that begin with them
 *              if at least two multiframes were read.
 *   a refusal  12 to 17, and *place is its place and answer stays as it came. 17 comes as soon as two headers agree in its settings, the
 *              others are those of dsr_read, met before anything settled. After 13, 14 or 16 more octets can settle, up to 255
 *              multiframes: call again with all of them. 12 and 15 stay however many follow, and so does 17 by DSR_DEFAULT_CHOICES.
 * Lend an answer of DSR_SETTLE_ANSWER_NUMBERS numbers; fewer are refused before all else with DSR_READ_ANSWER_SHORT, and wrong choices
 * next, as in dsr_read; then *place stays too.
 * That a multiframe is the only one is known at the end of the octets alone. So DSR_ONE_HEADER_SETTLES is for octets that are the whole
 * utterance: while the rest is still to come it takes the first multiframe for the only one. */
DSR_MUST_USE uint32_t dsr_settle(const uint8_t *octets, size_t octets_len, uint64_t choices, uint64_t *answer, size_t answer_len,
                                 uint64_t *place);

/* dsr_hunt looks for a multiframe at any bit. Bit t is in octet t / 8, with value 2^(t % 8). A place passes if 1,152 bits are left there,
 * at least `least` of its first 16 bits match the sync, and the header behind them is readable. Octets from the 2^61st on are not
 * searched: the number of bits has to fit 64 bits.
 *   DSR_DONE          *found is the smallest place from bit `from` on that passes, *tested how many were tested, found - from + 1;
 *                     *place stays.
 *   DSR_HUNT_MATCH    *place is least and *tested 0; *found stays.
 *   DSR_HUNT_NOWHERE  *place is from, which may lie beyond the end, *tested how many places from `from` on have 1,152 bits left; *found
 *                     stays. */
DSR_MUST_USE uint32_t dsr_hunt(const uint8_t *octets, size_t octets_len, uint64_t from, uint64_t least, uint64_t *found, uint64_t *tested,
                               uint64_t *place);

/* dsr_read_bits hunts from bit `from` on, takes the 1,152 bits found, hunts on right behind them, and so on to the end; then it reads the
 * multiframes found as dsr_read does, their syncs taken as whole. DSR_DONE, and answer holds the eight numbers of enum dsr_answer, index
 * the first 168m octets and report the first 13m (octets beyond them stay, numbers beyond the eighth too), and *place stays; or a refusal,
 * the first of 11, 10, 21, 22 and 15 to 20 that applies, and *place is its place and answer, index and report stay as they came. Lend an
 * answer of DSR_BITS_ANSWER_NUMBERS numbers; fewer are refused before all else with DSR_READ_ANSWER_SHORT, and wrong choices next, as in
 * dsr_read; then *place stays too.
 * A refusal gives no number of places tested: dsr_hunt does. An answer that is used again still holds the last success, as in dsr_read:
 * look at the number returned. */
DSR_MUST_USE uint32_t dsr_read_bits(const uint8_t *octets, size_t octets_len, uint64_t from, uint64_t least, uint64_t choices,
                                    const int32_t *codebook, size_t codebook_len, const int32_t *thresholds, size_t thresholds_len,
                                    uint8_t *index, size_t index_len, uint8_t *report, size_t report_len, uint64_t *answer,
                                    size_t answer_len, uint64_t *place);

/* --- the functions for daily use
 *
 * They are not proved, but tested. They add to the proved functions only this: the answer is a struct that is filled on a refusal too; a
 * null pointer is allowed where its length is 0, and with another length it is refused with DSR_WRONG_LENGTH before all else, as is a length
 * above SIZE_MAX / 2, such as the -1 of a failed read; null tables
 * are refused with DSR_READ_TABLES, when its turn comes. The pointer to the struct is never null. A name that ends in _ is the header's
 * own. */

/* DSR_AS_ is a cast that a strict C++ compiler takes too. */
#ifdef __cplusplus
#define DSR_AS_(type, number) static_cast<type>(number)
#else
#define DSR_AS_(type, number) ((type)(number))
#endif

/* struct dsr_tables is what a reading judges pairs by. How it is laid out stands above. */
struct dsr_tables {
    int32_t codebook[DSR_CODEBOOK_NUMBERS];
    int32_t thresholds[DSR_THRESHOLD_NUMBERS];
};

/* struct dsr_writing is what a writing says. */
struct dsr_writing {
    enum dsr_status status;
    /* The place of a refusal; 0 on success, and if the status has none. */
    uint64_t place;
    /* The number of octets written, 144 a multiframe; 0 on a refusal. */
    size_t octets;
};

/* struct dsr_reading is what a reading says. On a refusal rate is DSR_RATE_NONE and every number behind it is 0. */
struct dsr_reading {
    enum dsr_status status;
    /* The place of a refusal; 0 on success, and if the status has none. */
    uint64_t place;
    /* The settled sample rate, a number of enum dsr_rate, and the settled front end, one of enum dsr_front_end. */
    unsigned rate;
    unsigned type;
    /* The number of multiframes, m: of the lent memory 168m index octets and 13m report octets are filled. */
    unsigned multiframes;
    /* 24(m-1) plus the place (1 to 24, 0 if none) of the last nonzero frame of the last multiframe, after replacing. */
    unsigned speech;
    /* The number of bad pairs: those whose note is not 0. */
    unsigned bad;
    /* 1 if the last frame is zero, which marks the end of an utterance; 0 if the end is missing. */
    unsigned end;
    /* Of a hunt: the number of bits outside the multiframes found, and of places tested. A reading of octets has 0 here. */
    uint64_t outside;
    uint64_t tested;
};

/* struct dsr_settled is what a settling says. On a refusal rate is DSR_RATE_NONE and every number behind it is 0. */
struct dsr_settled {
    enum dsr_status status;
    /* The place of a refusal; 0 on success, and if the status has none. */
    uint64_t place;
    /* The settled sample rate, a number of enum dsr_rate, and the settled front end, one of enum dsr_front_end. */
    unsigned rate;
    unsigned type;
    /* The number of multiframes read. */
    unsigned multiframes;
};

/* struct dsr_hunted is what a hunt for one multiframe says. */
struct dsr_hunted {
    enum dsr_status status;
    /* The place of a refusal; 0 on success, and if the status has none. */
    uint64_t place;
    /* The multiframe's first bit; UINT64_MAX on a refusal. */
    uint64_t found;
    /* The number of places tested, on a refusal too. */
    uint64_t tested;
};

/* dsr_multiframes_for_frames gives the number of multiframes that so many frames are written to; 0 above DSR_MOST_FRAMES. */
static inline size_t dsr_multiframes_for_frames(size_t frames) {
    return frames > DSR_MOST_FRAMES ? 0 : frames / DSR_MULTIFRAME_FRAMES + 1;
}

/* dsr_octets_for_frames gives the octets to lend for writing so many frames; 0 above DSR_MOST_FRAMES. */
static inline size_t dsr_octets_for_frames(size_t frames) { return DSR_MULTIFRAME_OCTETS * dsr_multiframes_for_frames(frames); }

/* dsr_multiframes_in gives the number of multiframes of an image of so many octets, and the most that a reading of so many received octets
 * can give: at most DSR_MOST_MULTIFRAMES. Who lends that many's dsr_index_octets and dsr_report_octets never meets DSR_READ_INDEX_SHORT
 * or DSR_READ_REPORT_SHORT. */
static inline size_t dsr_multiframes_in(size_t octets) {
    size_t whole = octets / DSR_MULTIFRAME_OCTETS;
    return whole < DSR_MOST_MULTIFRAMES ? whole : DSR_MOST_MULTIFRAMES;
}

/* dsr_index_octets gives the index octets of so many multiframes; 0 above DSR_MOST_MULTIFRAMES. */
static inline size_t dsr_index_octets(size_t multiframes) {
    return multiframes > DSR_MOST_MULTIFRAMES ? 0 : DSR_MULTIFRAME_INDICES * multiframes;
}

/* dsr_report_octets gives the report octets of so many multiframes; 0 above DSR_MOST_MULTIFRAMES. */
static inline size_t dsr_report_octets(size_t multiframes) {
    return multiframes > DSR_MOST_MULTIFRAMES ? 0 : DSR_MULTIFRAME_REPORT * multiframes;
}

/* dsr_status_text gives the words of 01 and 02 for when a status is given; those of 0, of 96 to 99, of a hunt's 15 and of a number that is
 * no status are the library's own. */
static inline const char *dsr_status_text(uint32_t status) {
    switch (status) {
    case DSR_DONE: return "done";
    case DSR_WRITE_SETTINGS: return "rate not 0, 1 or 3, or type above 1";
    case DSR_WRITE_INDEX_COUNT: return "index octets no multiple of 7";
    case DSR_WRITE_FRAME_COUNT: return "more than 6,119 frames";
    case DSR_WRITE_INDEX_VALUE: return "one of the first six indices of a frame above 63";
    case DSR_WRITE_ZERO_FRAME: return "an all-zero frame that is the last, or whose number is a multiple of 24";
    case DSR_WRITE_OUTPUT_SHORT: return "output shorter than 144m";
    case DSR_READ_THRESHOLD: return "a negative threshold";
    case DSR_READ_TABLES: return "codebook not 1,280 or thresholds not 14";
    case DSR_READ_UNKNOWN: return "octets at p begin nothing known";
    case DSR_READ_CUT: return "sync with too few octets, or a lone last 87 or 78";
    case DSR_READ_NO_MULTIFRAME: return "no multiframe";
    case DSR_READ_TOO_MANY: return "a sync after 255 multiframes, even a cut one; in a hunt a match";
    case DSR_READ_UNSETTLED: return "settings not settled";
    case DSR_READ_SETTINGS: return "settled rate is 2 or any EXP is 1";
    case DSR_READ_INDEX_SHORT: return "index buffer under 168m";
    case DSR_READ_REPORT_SHORT: return "report buffer under 13m";
    case DSR_READ_ALL_BAD: return "every pair bad";
    case DSR_HUNT_MATCH: return "T outside 12 to 16";
    case DSR_HUNT_NOWHERE: return "no place found by the first hunt";
    case DSR_NO_SUCH_CHOICE: return "no such choice";
    case DSR_HEADER_UNREADABLE: return "no codeword differs from the word in at most two bits";
    case DSR_WRONG_LENGTH: return "a length is not the multiframe's, or none that lent memory has";
    case DSR_READ_ANSWER_SHORT: return "answer too short";
    default: return "no status of this library";
    }
}

/* dsr_lent_ says whether a pointer can be lent with that length. No memory is longer than half of all there could be: a length of -1, from a
 * failed read say, is none. */
static inline int dsr_lent_(const void *memory, size_t len) { return (memory || len == 0) && len <= SIZE_MAX / 2; }

/* dsr_write_utterance writes frames as dsr_write does. Rate and type are numbers of enum dsr_rate and enum dsr_front_end; every other is
 * refused, whatever its width. */
DSR_MUST_USE static inline enum dsr_status dsr_write_utterance(uint64_t rate, uint64_t type, const uint8_t *indices, size_t indices_len,
                                                               uint8_t *out, size_t out_len, struct dsr_writing *writing) {
    uint8_t no_index = 0, no_out = 0;
    uint64_t place = 0;
    uint32_t number = DSR_WRONG_LENGTH;
    if (dsr_lent_(indices, indices_len) && dsr_lent_(out, out_len))
        number = dsr_write(rate, type, indices ? indices : &no_index, indices_len, out ? out : &no_out, out_len, &place);
    writing->status = DSR_AS_(enum dsr_status, number);
    writing->place = number == DSR_DONE ? 0 : place;
    writing->octets = number == DSR_DONE ? DSR_AS_(size_t, place) : 0;
    return writing->status;
}

/* dsr_fill_ fills a reading. A proved function that refuses leaves the answer as it came, so a refusal shows what stood there before. */
static inline enum dsr_status dsr_fill_(uint32_t number, uint64_t place, const uint64_t *answer, struct dsr_reading *reading) {
    reading->status = DSR_AS_(enum dsr_status, number);
    reading->place = place;
    reading->rate = DSR_AS_(unsigned, answer[DSR_ANSWER_RATE]);
    reading->type = DSR_AS_(unsigned, answer[DSR_ANSWER_TYPE]);
    reading->multiframes = DSR_AS_(unsigned, answer[DSR_ANSWER_MULTIFRAMES]);
    reading->speech = DSR_AS_(unsigned, answer[DSR_ANSWER_SPEECH]);
    reading->bad = DSR_AS_(unsigned, answer[DSR_ANSWER_BAD]);
    reading->end = DSR_AS_(unsigned, answer[DSR_ANSWER_END]);
    reading->outside = answer[DSR_ANSWER_OUTSIDE];
    reading->tested = answer[DSR_ANSWER_TESTED];
    return reading->status;
}

/* dsr_read_utterance reads received octets as dsr_read does. Choices are a number of enum dsr_choices. Null tables are refused with
 * DSR_READ_TABLES, when its turn comes. */
DSR_MUST_USE static inline enum dsr_status dsr_read_utterance(const uint8_t *octets, size_t octets_len, uint64_t choices,
                                                              const struct dsr_tables *tables, uint8_t *index, size_t index_len,
                                                              uint8_t *report, size_t report_len, struct dsr_reading *reading) {
    uint8_t no_octet = 0, no_index = 0, no_report = 0;
    int32_t no_table = 0;
    uint64_t answer[DSR_BITS_ANSWER_NUMBERS] = {DSR_RATE_NONE}, place = 0;
    uint32_t number = DSR_WRONG_LENGTH;
    if (dsr_lent_(octets, octets_len) && dsr_lent_(index, index_len) && dsr_lent_(report, report_len))
        number = dsr_read(octets ? octets : &no_octet, octets_len, choices, tables ? tables->codebook : &no_table,
                          tables ? DSR_CODEBOOK_NUMBERS : 0, tables ? tables->thresholds : &no_table, tables ? DSR_THRESHOLD_NUMBERS : 0,
                          index ? index : &no_index, index_len, report ? report : &no_report, report_len, answer, DSR_ANSWER_NUMBERS,
                          &place);
    return dsr_fill_(number, place, answer, reading);
}

/* dsr_settle_utterance gives the settings of received octets as dsr_settle does. Choices are a number of enum dsr_choices. */
DSR_MUST_USE static inline enum dsr_status dsr_settle_utterance(const uint8_t *octets, size_t octets_len, uint64_t choices,
                                                                struct dsr_settled *settled) {
    uint8_t no_octet = 0;
    uint64_t answer[DSR_SETTLE_ANSWER_NUMBERS] = {DSR_RATE_NONE}, place = 0;
    uint32_t number = DSR_WRONG_LENGTH;
    if (dsr_lent_(octets, octets_len))
        number = dsr_settle(octets ? octets : &no_octet, octets_len, choices, answer, DSR_SETTLE_ANSWER_NUMBERS, &place);
    settled->status = DSR_AS_(enum dsr_status, number);
    settled->place = place;
    settled->rate = DSR_AS_(unsigned, answer[DSR_ANSWER_RATE]);
    settled->type = DSR_AS_(unsigned, answer[DSR_ANSWER_TYPE]);
    settled->multiframes = DSR_AS_(unsigned, answer[DSR_ANSWER_MULTIFRAMES]);
    return settled->status;
}

/* dsr_hunt_utterance reads bits with no octet boundary as dsr_read_bits does: from bit `from` on, at least `least` (12 to 16) of the sync's
 * bits matching. Choices are a number of enum dsr_choices. Null tables are refused with DSR_READ_TABLES, when its turn comes. */
DSR_MUST_USE static inline enum dsr_status dsr_hunt_utterance(const uint8_t *octets, size_t octets_len, uint64_t from, uint64_t least,
                                                              uint64_t choices, const struct dsr_tables *tables, uint8_t *index,
                                                              size_t index_len, uint8_t *report, size_t report_len,
                                                              struct dsr_reading *reading) {
    uint8_t no_octet = 0, no_index = 0, no_report = 0;
    int32_t no_table = 0;
    uint64_t answer[DSR_BITS_ANSWER_NUMBERS] = {DSR_RATE_NONE}, place = 0;
    uint32_t number = DSR_WRONG_LENGTH;
    if (dsr_lent_(octets, octets_len) && dsr_lent_(index, index_len) && dsr_lent_(report, report_len))
        number = dsr_read_bits(octets ? octets : &no_octet, octets_len, from, least, choices, tables ? tables->codebook : &no_table,
                               tables ? DSR_CODEBOOK_NUMBERS : 0, tables ? tables->thresholds : &no_table,
                               tables ? DSR_THRESHOLD_NUMBERS : 0, index ? index : &no_index, index_len, report ? report : &no_report,
                               report_len, answer, DSR_BITS_ANSWER_NUMBERS, &place);
    return dsr_fill_(number, place, answer, reading);
}

/* dsr_hunt_multiframe finds the first multiframe from bit `from` on as dsr_hunt does. */
DSR_MUST_USE static inline enum dsr_status dsr_hunt_multiframe(const uint8_t *octets, size_t octets_len, uint64_t from, uint64_t least,
                                                               struct dsr_hunted *hunted) {
    uint8_t no_octet = 0;
    uint32_t number = DSR_WRONG_LENGTH;
    hunted->place = 0;
    hunted->found = UINT64_MAX;
    hunted->tested = 0;
    if (dsr_lent_(octets, octets_len))
        number = dsr_hunt(octets ? octets : &no_octet, octets_len, from, least, &hunted->found, &hunted->tested, &hunted->place);
    hunted->status = DSR_AS_(enum dsr_status, number);
    return hunted->status;
}

#ifdef __cplusplus
}
#endif

#endif
