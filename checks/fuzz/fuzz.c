/* Makes random calls of the library until the time is up, and after each checks what a caller may rely on: a refusal leaves every buffer
 * as it came, octets beyond the answer stay, answers are in their range and agree with the buffers, what was written reads back,
 * damage of the kinds that the reader is proved to see is named, pairs beside it are bad exactly if they are inconsistent, a codebook
 * turned upside down changes nothing, higher thresholds make no pair bad, a hunt ends at the first place that passes, a reading that hunts
 * is the reading of what the hunts find, the choice of a rule changes nothing but for an only multiframe, and settings are settled as the
 * literal version settles them, as the full reading has them, and whatever stands behind.
 *
 *   fuzz SECONDS [SEED]            runs for that time and prints how often each answer was given; the environment can give SEED too
 *   fuzz 0 SEED ROUND              makes the calls of one round again
 *
 * Each round draws from a generator of its own, made of seed and round, so a failure's round is all that is needed to see it again. */
#include <stdio.h>
#include <stdlib.h>
#include <string.h>
#include <time.h>

#include "../../c/dsr.h"

enum {
    SYNC = 2,
    HEADER = 4,
    PACKET_BITS = 92,
    FRAMES = 24,
    MARGIN = 64,
    PATTERN = 0xC5,
    UNTOUCHED = 0xA55A,
    STATUSES = 100,
    SEED = 201108
};

static uint64_t state, seed = SEED, round_number, given[STATUSES], read_back, named, turned, hunted, only_ones, settled_early;

static uint32_t chance(uint32_t below) {
    state = state * 6364136223846793005u + 1442695040888963407u;
    return (uint32_t)((state >> 33) % below);
}

static void expect(int holds, const char *what) {
    if (holds) return;
    fprintf(stderr, "fuzz: %s\nfuzz: to see it again: fuzz 0 %llu %llu\n", what, (unsigned long long)seed, (unsigned long long)round_number);
    exit(1);
}

/* --- lent memory: on the heap, of exactly its size, or with a margin on both sides that has to stay. The address sanitizer sees a step
 * too far in C, the margin one in a library that was built without it. */

struct lent {
    uint8_t *block, *data, *copy;
    size_t len, margin;
};

static struct lent lend(size_t len) {
    struct lent l = {NULL, NULL, NULL, len, chance(2) ? MARGIN : 0};
    l.block = malloc(len + 2 * l.margin);
    l.copy = malloc(len);
    if (l.block == NULL || l.copy == NULL) {
        fprintf(stderr, "fuzz: no memory\n");
        exit(2);
    }
    l.data = l.block + l.margin;
    memset(l.block, PATTERN, l.margin);
    memset(l.data + len, PATTERN, l.margin);
    return l;
}

/* What a buffer holds before the call. */
static struct lent lend_buffer(size_t len) {
    struct lent l = lend(len);
    for (size_t i = 0; i < len; i++) l.data[i] = (uint8_t)chance(256);
    memcpy(l.copy, l.data, len);
    return l;
}

static struct lent lend_copy(const void *from, size_t len) {
    struct lent l = lend(len);
    if (len != 0) memcpy(l.data, from, len), memcpy(l.copy, from, len);
    return l;
}

static int stays_from(const struct lent *l, size_t at) { return memcmp(l->data + at, l->copy + at, l->len - at) == 0; }

static void give_back(struct lent *l) {
    for (size_t i = 0; i < l->margin; i++) {
        expect(l->block[i] == PATTERN, "an octet before a buffer was touched");
        expect(l->data[l->len + i] == PATTERN, "an octet behind a buffer was touched");
    }
    free(l->block);
    free(l->copy);
}

static void give_back_kept(struct lent *l, const char *what) {
    expect(stays_from(l, 0), what);
    give_back(l);
}

/* --- tables */

/* A number at an edge, or beside one. */
static int32_t edge_number(void) {
    static const int32_t edges[] = {INT32_MIN, INT32_MIN + 1, -1, 0, 1, INT32_MAX - 1, INT32_MAX};
    return edges[chance(sizeof edges / sizeof *edges)];
}

/* One number of a table of that kind: 0, small, of any size, or at an edge. */
static int32_t some_number(uint32_t kind) {
    if (kind == 0) return 0;
    if (kind == 1) return (int32_t)chance(200) - 100;
    return kind == 2 ? (int32_t)(chance(65536) << 16 | chance(65536)) : edge_number();
}

static int32_t number_at(const struct lent *table, size_t i) {
    int32_t x;
    memcpy(&x, table->data + sizeof x * i, sizeof x);
    return x;
}

static void set_number(struct lent *table, size_t i, int32_t x) {
    memcpy(table->data + sizeof x * i, &x, sizeof x);
    memcpy(table->copy + sizeof x * i, &x, sizeof x);
}

static struct lent lend_codebook(size_t numbers) {
    struct lent l = lend(sizeof(int32_t) * numbers);
    uint32_t kind = chance(5);
    for (size_t i = 0; i < numbers; i++) set_number(&l, i, some_number(kind < 4 ? kind : chance(4)));
    return l;
}

/* Thresholds of which none is negative. */
static struct lent lend_thresholds(size_t numbers) {
    struct lent l = lend(sizeof(int32_t) * numbers);
    uint32_t kind = chance(6);
    for (size_t i = 0; i < numbers; i++) {
        int32_t x = kind < 5 ? some_number(kind % 4) : INT32_MAX;
        set_number(&l, i, x < 0 ? -(x + 1) : x);
    }
    return l;
}

/* A negative number: -1, the lowest, or any other. */
static int32_t negative_number(void) {
    int32_t x = chance(2) ? edge_number() : some_number(2);
    return x < 0 ? x : -1;
}

/* Makes one to three of them negative, or all by as much. */
static void spoil_thresholds(struct lent *l) {
    uint32_t numbers = (uint32_t)(l->len / sizeof(int32_t));
    int32_t all = negative_number();
    if (chance(4) == 0)
        for (uint32_t i = 0; i < numbers; i++) set_number(l, i, all);
    else
        for (uint32_t times = numbers == 0 ? 0 : 1 + chance(3); times > 0; times--) set_number(l, chance(numbers), negative_number());
}

/* The number of the first negative threshold; how many there are if none is. */
static size_t first_negative(const struct lent *thresholds) {
    size_t numbers = thresholds->len / sizeof(int32_t), first = numbers;
    for (size_t i = numbers; i > 0; i--)
        if (number_at(thresholds, i - 1) < 0) first = i - 1;
    return first;
}

/* --- utterances */

static size_t frames_of_an_utterance(void) {
    if (chance(100) == 0) return DSR_MOST_FRAMES + 1 - chance(3);
    if (chance(400) == 0) return chance(DSR_MOST_FRAMES);
    return chance(4) == 0 ? FRAMES * chance(5) : chance(100);
}

static int is_zero(const uint8_t *frame) {
    for (unsigned i = 0; i < DSR_FRAME_INDICES; i++)
        if (frame[i] != 0) return 0;
    return 1;
}

static int is_wide(const uint8_t *frame) {
    for (unsigned i = 0; i < DSR_FRAME_INDICES - 1; i++)
        if (frame[i] > 63) return 1;
    return 0;
}

static int ends_early(const uint8_t *indices, size_t f, size_t frames) {
    return is_zero(indices + DSR_FRAME_INDICES * (f - 1)) && (f == frames || f % FRAMES == 0);
}

/* Frames that the writer accepts, but for a rare wide index or zero frame if `wild`. */
static void speak(uint8_t *indices, size_t frames, int wild) {
    for (size_t i = 0; i < DSR_FRAME_INDICES * frames; i++)
        indices[i] = (uint8_t)chance(i % DSR_FRAME_INDICES == DSR_FRAME_INDICES - 1 ? 256 : 64);
    for (size_t f = 1; f <= frames; f++) {
        uint8_t *frame = indices + DSR_FRAME_INDICES * (f - 1);
        if (chance(8) == 0) memset(frame, 0, DSR_FRAME_INDICES);
        if (ends_early(indices, f, frames)) frame[chance(DSR_FRAME_INDICES)] = 1;
    }
    if (!wild || frames == 0 || chance(3) != 0) return;
    uint8_t *frame = indices + DSR_FRAME_INDICES * chance((uint32_t)frames);
    if (chance(2)) frame[chance(DSR_FRAME_INDICES)] = (uint8_t)(64 + chance(192));
    else memset(indices + DSR_FRAME_INDICES * (frames - 1), 0, DSR_FRAME_INDICES);
}

/* --- header */

/* That many different places of a header. */
static uint32_t places(uint32_t count) {
    uint32_t set = 0;
    while ((uint32_t)__builtin_popcount(set) < count) set |= 1u << chance(32);
    return set;
}

static void add_to_header(uint8_t *header, uint32_t flips) {
    for (unsigned i = 0; i < HEADER; i++) header[i] ^= (uint8_t)(flips >> 8 * i);
}

static void try_header(void) {
    uint16_t message = (uint16_t)chance(65536), got = 0xBEEF;
    uint32_t flips = chance(5), word = dsr_header_encode(message), count = 0xA55A;
    expect((word & 0xFFFF) == message, "a codeword does not begin with its message");
    expect(__builtin_popcount(word) % 2 == 0, "a codeword has an odd number of ones");
    word ^= places(flips);
    if (chance(4) == 0) word = chance(65536) << 16 | chance(65536), flips = 5;
    uint32_t number = dsr_header_read(word, &got, &count);
    int readable = number == DSR_DONE;
    expect(readable || number == DSR_HEADER_UNREADABLE, "a header's answer is neither done nor unreadable");
    given[number]++;
    if (readable) {
        expect(count <= 2, "more than two flips were mended");
        expect((uint32_t)__builtin_popcount(dsr_header_encode(got) ^ word) == count, "flips are not the distance to the codeword");
    } else {
        expect(got == 0xBEEF && count == 0xA55A, "a lost header touched what was lent");
    }
    if (flips <= 2) expect(readable && got == message && count == flips, "a header with at most two flips was not mended");
    if (flips == 3) expect(!readable, "a header with three flips was read");
}

/* --- stream */

static size_t near(size_t right) { return chance(6) != 0 ? right : chance(2) ? right - 1 : chance((uint32_t)right * 2); }

static void try_stream(void) {
    struct lent stream = lend_buffer(near(DSR_STREAM_OCTETS)), indices = lend_buffer(near(DSR_MULTIFRAME_INDICES));
    struct lent notes = lend_buffer(near(DSR_MULTIFRAME_PAIRS));
    int right = stream.len == DSR_STREAM_OCTETS && indices.len == DSR_MULTIFRAME_INDICES && notes.len == DSR_MULTIFRAME_PAIRS;
    uint32_t number = dsr_unpack(stream.data, stream.len, indices.data, indices.len, notes.data, notes.len);
    expect(number == (right ? DSR_DONE : DSR_WRONG_LENGTH), "unpacking answers to lengths other than it says");
    given[number]++;
    if (right) {
        struct lent again = lend_buffer(DSR_STREAM_OCTETS);
        expect(dsr_pack(indices.data, indices.len, again.data, again.len) == DSR_DONE, "unpacked frames cannot be packed");
        for (size_t t = 0; t < 8 * DSR_STREAM_OCTETS; t++) {
            expect(notes.data[t / PACKET_BITS] <= 1, "a note of unpacking is neither 0 nor 1");
            unsigned was = stream.data[t / 8] >> t % 8 & 1, is = again.data[t / 8] >> t % 8 & 1;
            int same = was == is || (t % PACKET_BITS >= 88 && notes.data[t / PACKET_BITS] == 1);
            expect(same, "a packet that was unpacked and packed is another");
        }
        give_back(&again);
    } else {
        expect(stays_from(&indices, 0) && stays_from(&notes, 0), "a refused unpacking touched a buffer");
    }
    give_back_kept(&stream, "unpacking touched the stream");
    give_back(&indices);
    give_back(&notes);
}

/* --- writing */

static size_t octets_for(size_t frames) { return DSR_MULTIFRAME_OCTETS * (frames / FRAMES + 1); }

/* What a refused writing says has to be so, and nothing before it. */
static void check_refused_writing(uint32_t number, uint64_t place, const struct lent *indices, uint64_t rate, uint64_t type, size_t out) {
    size_t frames = indices->len / DSR_FRAME_INDICES;
    int settings = (rate == 0 || rate == 1 || rate == 3) && type <= 1, whole = indices->len % DSR_FRAME_INDICES == 0;
    expect((number == DSR_WRITE_SETTINGS) == !settings, "refusal 1 against the settings");
    if (number == DSR_WRITE_SETTINGS) expect(place == 0, "refusal 1 has a place");
    if (number == DSR_WRITE_INDEX_COUNT) expect(!whole && place == indices->len, "refusal 2");
    if (number == DSR_WRITE_FRAME_COUNT) expect(whole && frames > DSR_MOST_FRAMES && place == frames, "refusal 3");
    if (number == DSR_WRITE_OUTPUT_SHORT) expect(place == octets_for(frames) && place > out, "refusal 6");
    if (number != DSR_WRITE_INDEX_VALUE && number != DSR_WRITE_ZERO_FRAME) return;
    expect(place >= 1 && place <= frames, "a refused frame is none of the utterance");
    for (size_t f = 1; f <= place; f++) {
        int wide = is_wide(indices->data + DSR_FRAME_INDICES * (f - 1)), early = ends_early(indices->data, f, frames);
        expect((number == DSR_WRITE_INDEX_VALUE ? wide : early) == (f == place), "a refused frame is not the first of its kind");
    }
}

static uint64_t known_choice(void) { return chance(2) ? DSR_DEFAULT_CHOICES : DSR_ONE_HEADER_SETTLES; }

static void check_reads_back(uint64_t rate, uint64_t type, const struct lent *indices, const struct lent *image) {
    size_t frames = indices->len / DSR_FRAME_INDICES, m = image->len / DSR_MULTIFRAME_OCTETS;
    struct lent index = lend_buffer(DSR_MULTIFRAME_INDICES * m), report = lend_buffer(DSR_MULTIFRAME_REPORT * m);
    struct lent codebook = lend_codebook(DSR_CODEBOOK_NUMBERS), thresholds = lend_thresholds(DSR_THRESHOLD_NUMBERS);
    uint64_t a[DSR_ANSWER_NUMBERS], place = UNTOUCHED, choices = m == 1 ? DSR_ONE_HEADER_SETTLES : known_choice();
    uint32_t number = dsr_read(image->data, image->len, choices, (const int32_t *)codebook.data, DSR_CODEBOOK_NUMBERS,
                               (const int32_t *)thresholds.data, DSR_THRESHOLD_NUMBERS, index.data, index.len, report.data, report.len, a,
                               DSR_ANSWER_NUMBERS, &place);
    expect(number == DSR_DONE && place == UNTOUCHED, "a written utterance is refused, or its place touched");
    expect(a[DSR_ANSWER_RATE] == rate && a[DSR_ANSWER_TYPE] == type, "a written utterance has other settings");
    expect(a[DSR_ANSWER_MULTIFRAMES] == m && a[DSR_ANSWER_SPEECH] == frames, "a written utterance has another length");
    expect(a[DSR_ANSWER_BAD] == 0 && a[DSR_ANSWER_END] == 1, "a written utterance has bad pairs or no end");
    expect(memcmp(index.data, indices->data, indices->len) == 0, "a written utterance has other frames");
    for (size_t i = indices->len; i < index.len; i++) expect(index.data[i] == 0, "padding is not zero");
    for (size_t i = 0; i < report.len; i++) expect(report.data[i] == 0, "a written utterance has a note");
    give_back(&index), give_back(&report);
    give_back_kept(&codebook, "reading touched the codebook"), give_back_kept(&thresholds, "reading touched the thresholds");
    read_back++;
}

/* A small number, and one of these moved up, so that it is small again where a number is cut. */
static uint64_t any_number(void) { return chance(5) + (chance(2) ? (uint64_t)1 << chance(64) : 0); }

static void try_write(void) {
    size_t frames = frames_of_an_utterance(), room = octets_for(frames);
    struct lent indices = lend(DSR_FRAME_INDICES * frames + (chance(20) == 0 ? chance(7) : 0));
    memset(indices.data, 1, indices.len);
    speak(indices.data, frames, 1);
    memcpy(indices.copy, indices.data, indices.len);
    struct lent out = lend_buffer(chance(8) == 0 ? chance((uint32_t)room) : room + (chance(2) ? chance(300) : 0));
    uint64_t rate = chance(9) == 0 ? any_number() : 0x310 >> 4 * chance(3) & 15, type = chance(9) == 0 ? any_number() : chance(2);
    uint64_t place = UNTOUCHED;
    uint32_t number = dsr_write(rate, type, indices.data, indices.len, out.data, out.len, &place);
    expect(number <= DSR_WRITE_OUTPUT_SHORT, "a writing's answer is no number of 01");
    given[number]++;
    check_refused_writing(number, place, &indices, rate, type, out.len);
    if (number == DSR_DONE) {
        expect(place == room && room <= out.len && stays_from(&out, room), "octets beyond the image were touched");
        struct lent image = lend_copy(out.data, room);
        check_reads_back(rate, type, &indices, &image);
        give_back_kept(&image, "reading touched the octets");
    } else {
        expect(stays_from(&out, 0), "a refused writing touched the output");
    }
    give_back(&out);
    give_back_kept(&indices, "writing touched the indices");
}

/* --- reading anything */

/* Room for the longest image and what mutation may put in. */
static uint8_t octets[(DSR_MOST_MULTIFRAMES + 4) * DSR_MULTIFRAME_OCTETS];
static uint8_t spoken[DSR_FRAME_INDICES * DSR_MOST_FRAMES];
static size_t octets_len, spoken_frames;

static const uint8_t whole_sync[SYNC] = {0x87, 0xB2}, inverse_sync[SYNC] = {0x78, 0x4D};

static void flip(uint8_t *at, size_t bit) { at[bit / 8] ^= (uint8_t)(1u << bit % 8); }

/* A written utterance in `octets`. */
static void write_octets(size_t frames) {
    uint64_t place = 0;
    spoken_frames = frames;
    speak(spoken, frames, 0);
    uint32_t number = dsr_write(chance(2) ? 0 : 3, chance(2), spoken, DSR_FRAME_INDICES * frames, octets, sizeof octets, &place);
    expect(number == DSR_DONE, "an utterance that fits is refused");
    octets_len = place;
}

static void insert(size_t at, const uint8_t *what, size_t len) {
    if (octets_len + len > sizeof octets) return;
    memmove(octets + at + len, octets + at, octets_len - at);
    memcpy(octets + at, what, len);
    octets_len += len;
}

static void insert_often(size_t at, const uint8_t *sync, uint32_t times) {
    for (; times > 0; times--) insert(at, sync, SYNC);
}

/* Often so few that one multiframe holds them: there the rule matters. */
static size_t few_frames(void) { return chance(4) == 0 ? chance(FRAMES) : chance(150); }

/* Adds one codeword to every header: other settings, still codewords. */
static void change_settings(size_t m) {
    uint32_t common = dsr_header_encode((uint16_t)(chance(2) ? 1u << chance(16) : chance(65536)));
    for (size_t k = 0; k < m; k++) add_to_header(octets + DSR_MULTIFRAME_OCTETS * k + SYNC, common);
}

static void mutate(void) {
    uint32_t n = (uint32_t)octets_len, m = n / DSR_MULTIFRAME_OCTETS;
    switch (chance(9)) {
    case 0: if (n > 0) flip(octets, chance(8 * n)); break;
    case 1: if (m > 0) add_to_header(octets + DSR_MULTIFRAME_OCTETS * chance(m) + SYNC, places(chance(5))); break;
    case 2: insert_often(m > 0 ? DSR_MULTIFRAME_OCTETS * chance(m + 1) : 0, inverse_sync, chance(8) ? 1 : chance(150)); break;
    case 3: insert(chance(4) ? n : chance(n + 1), whole_sync, 1 + chance(2)); break;
    case 4: octets_len = chance(3) ? n : chance(n + 1); break;
    case 5: if (n > 0) octets[chance(n)] = (uint8_t)chance(256); break;
    case 6: if (m > 0) insert(n, octets + DSR_MULTIFRAME_OCTETS * chance(m), DSR_MULTIFRAME_OCTETS); break;
    case 7: if (chance(4) == 0) change_settings(m); break;
    default: if (m > 0) memset(octets + DSR_MULTIFRAME_OCTETS * chance(m) + SYNC + HEADER, (int)chance(256), 12);
    }
}

/* Notes are in range, the bad pairs are counted, and two readable headers agree in the settings, or the only one is clean and may settle. */
static void check_notes(const uint8_t *report, const uint64_t *a, uint64_t choices) {
    uint64_t bad = 0, agree = 0;
    for (size_t i = 0; i < DSR_MULTIFRAME_REPORT * a[DSR_ANSWER_MULTIFRAMES]; i++) {
        if (i % DSR_MULTIFRAME_REPORT != 0) {
            expect(report[i] <= DSR_PAIR_BAD, "a pair note out of range");
            bad += report[i] != DSR_PAIR_GOOD;
        } else {
            unsigned flips = report[i] & 3;
            expect(report[i] < 16 && (flips != 3 || report[i] == DSR_HEADER_LOST), "a header note out of range");
            agree += flips != 3 && (report[i] & DSR_HEADER_DIFFERS) == 0;
        }
    }
    int only = a[DSR_ANSWER_MULTIFRAMES] == 1 && agree == 1 && (report[0] & 3) == 0;
    expect(agree >= 2 || (only && choices == DSR_ONE_HEADER_SETTLES), "settings that nothing settles");
    expect(bad == a[DSR_ANSWER_BAD], "the number of bad pairs is not that of the notes");
}

static uint8_t note_of(const uint8_t *report, size_t q) { return report[q + q / DSR_MULTIFRAME_PAIRS + 1]; }

/* In a run of bad pairs the first half is the good frame before it, the second half the one after it; at an end of the utterance there
 * is one of them only. */
static void check_replaced(const uint8_t *index, const uint8_t *report, size_t pairs) {
    for (size_t start = 0, end; start < pairs; start = end + 1) {
        for (end = start; end < pairs && note_of(report, end) != DSR_PAIR_GOOD; end++) {}
        for (size_t f = 2 * start; f < 2 * end; f++) {
            int before = end == pairs || (start > 0 && f < start + end);
            const uint8_t *from = index + DSR_FRAME_INDICES * (before ? 2 * start - 1 : 2 * end);
            expect(memcmp(index + DSR_FRAME_INDICES * f, from, DSR_FRAME_INDICES) == 0, "a bad pair's frame is not its good neighbour");
        }
    }
}

/* A reading without a note, whose frames the writer accepts, is written again octet for octet. */
static void check_written_again(const struct lent *in, const struct lent *index, const struct lent *report, const uint64_t *a) {
    size_t m = a[DSR_ANSWER_MULTIFRAMES];
    if (in->len != DSR_MULTIFRAME_OCTETS * m || a[DSR_ANSWER_END] != 1) return;
    for (size_t i = 0; i < DSR_MULTIFRAME_REPORT * m; i++)
        if (report->data[i] != 0) return;
    struct lent out = lend_buffer(in->len);
    uint64_t place = 0;
    uint32_t number = dsr_write(a[DSR_ANSWER_RATE], a[DSR_ANSWER_TYPE], index->data,
                                DSR_FRAME_INDICES * a[DSR_ANSWER_SPEECH], out.data, out.len, &place);
    if (number == DSR_DONE) expect(place == in->len && memcmp(out.data, in->data, in->len) == 0, "a reading without a note is written otherwise");
    give_back(&out);
}

static void check_reading(const struct lent *in, const struct lent *index, const struct lent *report, const uint64_t *a,
                          uint64_t choices) {
    uint64_t m = a[DSR_ANSWER_MULTIFRAMES], speech = a[DSR_ANSWER_SPEECH];
    expect(a[DSR_ANSWER_RATE] <= 3 && a[DSR_ANSWER_RATE] != 2 && a[DSR_ANSWER_TYPE] <= 1, "settings out of range");
    expect(m >= 1 && m <= DSR_MOST_MULTIFRAMES && DSR_MULTIFRAME_OCTETS * m <= in->len, "multiframes out of range");
    expect((in->len - DSR_MULTIFRAME_OCTETS * m) % 2 == 0, "something else than inverse syncs was stepped over");
    expect(DSR_MULTIFRAME_INDICES * m <= index->len && DSR_MULTIFRAME_REPORT * m <= report->len, "read into a short buffer");
    expect(stays_from(index, DSR_MULTIFRAME_INDICES * m) && stays_from(report, DSR_MULTIFRAME_REPORT * m), "octets beyond were touched");
    check_notes(report->data, a, choices);
    for (size_t f = 0; f < FRAMES * m; f++) expect(!is_wide(index->data + DSR_FRAME_INDICES * f), "an index above 63");
    expect(a[DSR_ANSWER_BAD] < DSR_MULTIFRAME_PAIRS * m, "all pairs are bad");
    check_replaced(index->data, report->data, DSR_MULTIFRAME_PAIRS * m);
    uint64_t last = FRAMES;
    while (last > 0 && is_zero(index->data + DSR_FRAME_INDICES * (FRAMES * (m - 1) + last - 1))) last--;
    expect(speech == FRAMES * (m - 1) + last, "speech is not where the last frame that is not zero stands");
    expect(a[DSR_ANSWER_END] == (last < FRAMES), "end is not what the last frame says");
    check_written_again(in, index, report, a);
}

static void check_refused_reading(uint32_t number, uint64_t place, const struct lent *in, const struct lent *index, const struct lent *report) {
    const uint8_t *at = in->data + place;
    size_t left = place < in->len ? in->len - place : 0;
    expect(stays_from(index, 0) && stays_from(report, 0), "a refused reading touched a buffer");
    switch (number) {
    case DSR_READ_UNKNOWN:
        expect(left > 0 && !(left > 1 && ((at[0] == 0x87 && at[1] == 0xB2) || (at[0] == 0x78 && at[1] == 0x4D))), "refusal 12");
        break;
    case DSR_READ_CUT: expect(left > 0 && left < DSR_MULTIFRAME_OCTETS && (at[0] == 0x87 || (at[0] == 0x78 && left == 1)), "refusal 13"); break;
    case DSR_READ_NO_MULTIFRAME: expect(place == in->len, "refusal 14"); break;
    case DSR_READ_TOO_MANY: expect(left > 1 && at[0] == 0x87 && place >= DSR_MOST_MULTIFRAMES * DSR_MULTIFRAME_OCTETS, "refusal 15"); break;
    case DSR_READ_INDEX_SHORT: expect(place > index->len && place % DSR_MULTIFRAME_INDICES == 0, "refusal 18"); break;
    case DSR_READ_THRESHOLD: case DSR_NO_SUCH_CHOICE: case DSR_READ_ANSWER_SHORT: break;
    case DSR_READ_REPORT_SHORT: expect(place > report->len && place % DSR_MULTIFRAME_REPORT == 0, "refusal 19"); break;
    default: expect(place == 0, "a refusal has a place that 01 does not give it");
    }
}

static size_t room_near(size_t needed) {
    if (chance(12) == 0) return needed == 0 ? 0 : needed - 1;
    return chance(2) ? needed : needed + chance(300);
}

/* An answer of its length, of less or of more, and a place. */
static struct lent lend_answer(size_t numbers) {
    return lend_buffer(sizeof(uint64_t) * (chance(15) == 0 ? chance((uint32_t)numbers) : numbers + chance(2) * chance(5)));
}

static struct lent lend_place(void) {
    uint64_t untouched = UNTOUCHED;
    return lend_copy(&untouched, sizeof untouched);
}

/* Mostly a choice that there is; else any number, or one of these two moved up, so that it is right again where a number is cut. */
static uint64_t some_choices(void) {
    if (chance(12) != 0) return known_choice();
    return chance(2) ? any_number() : known_choice() + ((uint64_t)1 << (1 + chance(63)));
}

static int is_known(uint64_t choices) { return choices == DSR_DEFAULT_CHOICES || choices == DSR_ONE_HEADER_SETTLES; }

/* What is lent to a reading beside the octets. */
struct rooms {
    struct lent codebook, thresholds, index, report, answer, place;
};

static struct rooms lend_rooms(size_t m, size_t numbers) {
    struct rooms r;
    r.codebook = lend_codebook(chance(40) ? DSR_CODEBOOK_NUMBERS : chance(2000));
    r.thresholds = lend_thresholds(chance(40) ? DSR_THRESHOLD_NUMBERS : chance(30));
    if (chance(12) == 0) spoil_thresholds(&r.thresholds);
    r.index = lend_buffer(room_near(DSR_MULTIFRAME_INDICES * m));
    r.report = lend_buffer(room_near(DSR_MULTIFRAME_REPORT * m));
    r.answer = lend_answer(numbers);
    r.place = lend_place();
    return r;
}

/* The same tables, and memory to be written as it came. */
static struct rooms lend_again(const struct rooms *r) {
    struct rooms again = {r->codebook, r->thresholds, lend_copy(r->index.copy, r->index.len), lend_copy(r->report.copy, r->report.len),
                          lend_copy(r->answer.copy, r->answer.len), lend_copy(r->place.copy, r->place.len)};
    return again;
}

static void give_back_written(struct rooms *r) { give_back(&r->index), give_back(&r->report), give_back(&r->answer), give_back(&r->place); }

static void give_back_rooms(struct rooms *r) {
    give_back_written(r);
    give_back_kept(&r->codebook, "reading touched the codebook"), give_back_kept(&r->thresholds, "reading touched the thresholds");
}

static uint64_t place_of(const struct rooms *r) {
    uint64_t place;
    memcpy(&place, r->place.data, sizeof place);
    return place;
}

static int right_tables(const struct rooms *r) {
    return r->codebook.len / 4 == DSR_CODEBOOK_NUMBERS && r->thresholds.len / 4 == DSR_THRESHOLD_NUMBERS;
}

/* Whether tables of the right lengths have a negative threshold. */
static int has_negative(const struct rooms *r) { return right_tables(r) && first_negative(&r->thresholds) < DSR_THRESHOLD_NUMBERS; }

/* What the number says of choices, tables, answer and place. */
static void check_number(uint32_t number, uint64_t choices, const struct rooms *r) {
    int short_answer = r->answer.len < sizeof(uint64_t) * DSR_ANSWER_NUMBERS, done = number == DSR_DONE;
    int asked = !short_answer && is_known(choices);
    expect((number == DSR_READ_ANSWER_SHORT) == short_answer, "refusal 99 against the answer's length");
    expect((number == DSR_NO_SUCH_CHOICE) == (!short_answer && !is_known(choices)), "refusal 96 against the choices");
    if (!asked) expect(stays_from(&r->place, 0), "a short answer or an unknown choice touched the place");
    else expect(done || (number >= DSR_READ_THRESHOLD && number <= DSR_READ_ALL_BAD), "a reading's answer is no number of 01 or 02");
    if (asked) expect((number == DSR_READ_TABLES) == !right_tables(r), "refusal 11 against the tables");
    if (asked) expect((number == DSR_READ_THRESHOLD) == has_negative(r), "refusal 10 against the thresholds");
    if (number == DSR_READ_THRESHOLD) expect(place_of(r) == first_negative(&r->thresholds), "refusal 10 is not at the first one");
    expect(stays_from(&r->answer, done ? sizeof(uint64_t) * DSR_ANSWER_NUMBERS : 0), "a reading touched numbers that have to stay");
    if (done) expect(stays_from(&r->place, 0), "a reading that ended well touched the place");
    given[number]++;
}

static uint32_t read_and_check(const struct lent *in, uint64_t choices, struct rooms *r) {
    uint32_t number = dsr_read(in->data, in->len, choices, (const int32_t *)r->codebook.data, r->codebook.len / 4,
                               (const int32_t *)r->thresholds.data, r->thresholds.len / 4, r->index.data, r->index.len, r->report.data,
                               r->report.len, (uint64_t *)r->answer.data, r->answer.len / sizeof(uint64_t), (uint64_t *)r->place.data);
    check_number(number, choices, r);
    if (number == DSR_DONE) check_reading(in, &r->index, &r->report, (const uint64_t *)r->answer.data, choices);
    else check_refused_reading(number, place_of(r), in, &r->index, &r->report);
    return number;
}

/* The only multiframe of octets that can be cut up; null if there are more. */
static const uint8_t *only_multiframe(const struct lent *in) {
    const uint8_t *last = NULL;
    size_t m = 0;
    for (size_t p = 0; p < in->len; p += in->data[p] == 0x87 ? DSR_MULTIFRAME_OCTETS : SYNC)
        if (in->data[p] == 0x87) last = in->data + p, m++;
    return m == 1 ? last : NULL;
}

static int is_codeword(const uint8_t *header) {
    uint32_t word = 0;
    for (unsigned i = 0; i < HEADER; i++) word |= (uint32_t)header[i] << 8 * i;
    return dsr_header_encode((uint16_t)word) == word;
}

static int same(const struct lent *a, const struct lent *b) { return memcmp(a->data, b->data, a->len) == 0; }

/* The other rule gives the same, but for an only multiframe: by default that is unsettled, by the old rule if its header is no codeword. */
static void check_other_rule(const struct lent *in, uint64_t choices, const struct rooms *r, uint32_t number) {
    struct rooms again = lend_again(r);
    uint32_t other = read_and_check(in, choices ^ DSR_ONE_HEADER_SETTLES, &again);
    uint32_t by_default = choices == DSR_DEFAULT_CHOICES ? number : other, by_old = choices == DSR_DEFAULT_CHOICES ? other : number;
    const uint8_t *only = number == DSR_DONE || number >= DSR_READ_UNSETTLED ? only_multiframe(in) : NULL;
    if (only != NULL) {
        expect(by_default == DSR_READ_UNSETTLED, "one header alone settles by default");
        expect((by_old == DSR_READ_UNSETTLED) == !is_codeword(only + SYNC), "an only codeword does not settle, or something else does");
        only_ones++;
    } else {
        expect(number == other && same(&r->answer, &again.answer) && same(&r->place, &again.place), "a rule changes what is answered");
        expect(same(&r->index, &again.index) && same(&r->report, &again.report), "a rule changes what is read");
    }
    give_back_written(&again);
}

/* All that two readings of the same octets gave. */
static int same_written(const struct rooms *a, const struct rooms *b) {
    return same(&a->answer, &b->answer) && same(&a->place, &b->place) && same(&a->index, &b->index) && same(&a->report, &b->report);
}

/* A codebook of ones' complements has a fall of the same size for every rise, and a rise for every fall: nothing changes. */
static void check_upside_down(const struct lent *in, uint64_t choices, const struct rooms *r, uint32_t number) {
    struct rooms again = lend_again(r);
    again.codebook = lend_copy(r->codebook.data, r->codebook.len);
    for (size_t i = 0; i < again.codebook.len / sizeof(int32_t); i++) set_number(&again.codebook, i, ~number_at(&r->codebook, i));
    expect(read_and_check(in, choices, &again) == number && same_written(r, &again), "a codebook turned upside down is read otherwise");
    give_back_written(&again), give_back_kept(&again.codebook, "reading touched the codebook");
}

/* The highest thresholds make no pair bad that was not bad before. */
static void check_raised(const struct lent *in, uint64_t choices, const struct rooms *r) {
    struct rooms again = lend_again(r);
    again.thresholds = lend_copy(r->thresholds.data, r->thresholds.len);
    for (size_t i = 0; i < DSR_THRESHOLD_NUMBERS; i++) set_number(&again.thresholds, i, INT32_MAX);
    expect(read_and_check(in, choices, &again) == DSR_DONE, "higher thresholds make a reading refuse");
    for (size_t i = 0; i < r->report.len; i++) {
        uint8_t was = r->report.data[i], is = again.report.data[i];
        int freed = i % DSR_MULTIFRAME_REPORT != 0 && was == DSR_PAIR_BAD && is == DSR_PAIR_GOOD;
        expect(is == was || freed, "higher thresholds make a pair bad");
    }
    give_back_written(&again), give_back_kept(&again.thresholds, "reading touched the thresholds");
}

/* Settings of its own in about one header of `one_in`, and one in four of these is lost: then two agree late or never. */
static void estrange_headers(size_t m, uint32_t one_in) {
    for (size_t k = 0; k < m; k++) {
        uint8_t *header = octets + DSR_MULTIFRAME_OCTETS * k + SYNC;
        if (chance(one_in) != 0) continue;
        memset(header, 0, HEADER);
        add_to_header(header, dsr_header_encode((uint16_t)chance(65536)) ^ (chance(4) == 0 ? places(3) : 0));
    }
}

/* Random octets, or an utterance with its mutations; the headers of some are estranged before. */
static void fill_octets(int estranged) {
    if (chance(20) == 0) {
        octets_len = chance(400);
        for (size_t i = 0; i < octets_len; i++) octets[i] = (uint8_t)chance(256);
    } else {
        write_octets(chance(200) == 0 ? DSR_MOST_FRAMES - chance(30) : few_frames());
        if (estranged) estrange_headers(octets_len / DSR_MULTIFRAME_OCTETS, 1 + chance(3));
    }
    for (uint32_t times = chance(chance(4) == 0 ? 40 : 5); times > 0; times--) mutate();
}

static void try_read(void) {
    fill_octets(0);
    struct lent in = lend_copy(octets, octets_len);
    struct rooms r = lend_rooms(octets_len / DSR_MULTIFRAME_OCTETS, DSR_ANSWER_NUMBERS);
    uint64_t choices = some_choices();
    uint32_t number = read_and_check(&in, choices, &r);
    if (number <= DSR_READ_ALL_BAD) check_other_rule(&in, choices, &r, number);
    if (number == DSR_DONE || number == DSR_READ_ALL_BAD) check_upside_down(&in, choices, &r, number), turned++;
    if (number == DSR_DONE) check_raised(&in, choices, &r);
    give_back_rooms(&r);
    give_back_kept(&in, "reading touched the octets");
}

/* --- settings without the whole utterance */

/* The literal version, which literal.h has under names that are others' here. */
uint32_t literal_settle(const uint8_t *octets, size_t octets_len, int one_header_settles, uint64_t *answer, uint64_t *place);

struct settling {
    uint32_t number;
    uint64_t place, answer[DSR_SETTLE_ANSWER_NUMBERS];
};

static int same_settling(const struct settling *a, const struct settling *b) {
    return a->number == b->number && a->place == b->place && memcmp(a->answer, b->answer, sizeof a->answer) == 0;
}

static struct settling settle(const uint8_t *data, size_t len, uint64_t choices) {
    struct settling s = {0, UNTOUCHED, {UNTOUCHED, UNTOUCHED, UNTOUCHED}};
    s.number = dsr_settle(data, len, choices, s.answer, DSR_SETTLE_ANSWER_NUMBERS, &s.place);
    return s;
}

/* Numbers, and memory that has to stay. */
static void check_lent_settling(const struct lent *in, uint64_t choices) {
    struct lent answer = lend_answer(DSR_SETTLE_ANSWER_NUMBERS), place = lend_place();
    size_t numbers = answer.len / sizeof(uint64_t);
    uint32_t number = dsr_settle(in->data, in->len, choices, (uint64_t *)answer.data, numbers, (uint64_t *)place.data);
    int short_answer = numbers < DSR_SETTLE_ANSWER_NUMBERS, asked = !short_answer && is_known(choices), done = number == DSR_DONE;
    expect((number == DSR_READ_ANSWER_SHORT) == short_answer, "refusal 99 against the answer's length in a settling");
    expect((number == DSR_NO_SUCH_CHOICE) == (!short_answer && !is_known(choices)), "refusal 96 against the choices in a settling");
    if (asked) expect(done || (number >= DSR_READ_UNKNOWN && number <= DSR_READ_SETTINGS), "a settling's answer is no number of 02");
    if (!asked || done) expect(stays_from(&place, 0), "a settling touched a place that has to stay");
    expect(stays_from(&answer, done ? sizeof(uint64_t) * DSR_SETTLE_ANSWER_NUMBERS : 0), "a settling touched numbers that have to stay");
    if (asked) expect(number == settle(in->data, in->len, choices).number, "a settling answers otherwise the second time");
    given[number]++;
    give_back(&answer), give_back(&place);
}

static void check_against_literal(const struct lent *in, uint64_t choices, const struct settling *s) {
    struct settling right = {0, UNTOUCHED, {UNTOUCHED, UNTOUCHED, UNTOUCHED}};
    right.number = literal_settle(in->data, in->len, choices == DSR_ONE_HEADER_SETTLES, right.answer, &right.place);
    expect(same_settling(s, &right), "a settling is not the literal version's");
}

/* The full reading's settings if it succeeds; its refusal, or what was settled before it. */
static void check_against_reading(const struct lent *in, uint64_t choices, const struct settling *s) {
    static const int32_t codebook[DSR_CODEBOOK_NUMBERS], thresholds[DSR_THRESHOLD_NUMBERS];
    static uint8_t index[DSR_MULTIFRAME_INDICES * DSR_MOST_MULTIFRAMES], report[DSR_MULTIFRAME_REPORT * DSR_MOST_MULTIFRAMES];
    uint64_t a[DSR_ANSWER_NUMBERS] = {0}, place = UNTOUCHED;
    uint32_t number = dsr_read(in->data, in->len, choices, codebook, DSR_CODEBOOK_NUMBERS, thresholds, DSR_THRESHOLD_NUMBERS, index,
                               sizeof index, report, sizeof report, a, DSR_ANSWER_NUMBERS, &place);
    int done = s->number == DSR_DONE, refused_alike = s->number == number && s->place == place;
    if (number == DSR_DONE)
        expect(done && s->answer[0] == a[DSR_ANSWER_RATE] && s->answer[1] == a[DSR_ANSWER_TYPE], "settings are not the full reading's");
    else if (number == DSR_READ_ALL_BAD) expect(done, "bad pairs keep settings from being settled");
    else if (number == DSR_READ_UNKNOWN || number == DSR_READ_CUT || number == DSR_READ_TOO_MANY)
        expect(refused_alike || done || s->number == DSR_READ_SETTINGS, "a settling refuses otherwise than the full reading");
    else expect(refused_alike, "a settling refuses otherwise than the full reading");
}

/* Where that many multiframes of the octets end. */
static size_t end_of(const struct lent *in, uint64_t multiframes) {
    size_t p = 0;
    while (multiframes > 0 && p < in->len) {
        int sync = in->data[p] == whole_sync[0];
        multiframes -= (uint64_t)sync;
        p += sync ? DSR_MULTIFRAME_OCTETS : SYNC;
    }
    expect(multiframes == 0 && p <= in->len, "more multiframes are told as read than there are");
    return p;
}

/* Neither the end of the octets nor anything else behind the settling multiframe changes what is answered. */
static void check_behind(const struct lent *in, uint64_t choices, const struct settling *s) {
    if (s->number != DSR_DONE || s->answer[DSR_ANSWER_MULTIFRAMES] < 2) return;
    size_t end = end_of(in, s->answer[DSR_ANSWER_MULTIFRAMES]);
    struct lent other = lend_buffer(end + chance(300));
    memcpy(other.data, in->data, end), memcpy(other.copy, in->data, end);
    struct settling alone = settle(other.data, end, choices), followed = settle(other.data, other.len, choices);
    expect(same_settling(s, &alone) && same_settling(s, &followed), "what stands behind the settling multiframe changes its answer");
    give_back_kept(&other, "settling touched the octets");
    settled_early++;
}

static void try_settle(void) {
    fill_octets((int)chance(2));
    struct lent in = lend_copy(octets, octets_len);
    uint64_t choices = known_choice();
    struct settling s = settle(in.data, in.len, choices);
    check_lent_settling(&in, some_choices());
    check_against_literal(&in, choices, &s);
    check_against_reading(&in, choices, &s);
    check_behind(&in, choices, &s);
    give_back_kept(&in, "settling touched the octets");
}

/* --- damage that the reader is proved to see */

/* Flips inside four neighbouring bits, or two whose distance is no multiple of 15. */
static void damage_packet(uint8_t *stream, size_t start) {
    uint32_t at = chance(PACKET_BITS - 3), burst = 1 + chance(15), first = chance(PACKET_BITS), second = chance(PACKET_BITS);
    if (chance(2) && first != second && (first > second ? first - second : second - first) % 15 != 0) {
        flip(stream, start + first), flip(stream, start + second);
        return;
    }
    for (unsigned i = 0; i < 4; i++)
        if (burst >> i & 1) flip(stream, start + at + i);
}

static void damage_image(uint8_t *damaged, size_t m) {
    uint32_t one_in = 1 + chance(20);
    for (size_t k = 0; k < m; k++) {
        uint8_t *header = octets + DSR_MULTIFRAME_OCTETS * k + SYNC;
        add_to_header(header, places(chance(3)));
        for (size_t p = 0; p < DSR_MULTIFRAME_PAIRS; p++) {
            damaged[DSR_MULTIFRAME_PAIRS * k + p] = chance(one_in) == 0;
            if (damaged[DSR_MULTIFRAME_PAIRS * k + p]) damage_packet(header + HEADER, PACKET_BITS * p);
        }
    }
}

/* An index of a frame that was written, or of padding. */
static uint8_t index_spoken(size_t i) { return i < DSR_FRAME_INDICES * spoken_frames ? spoken[i] : 0; }

/* Whether a number of the codebook is further from another than that, above it or below it. */
static int is_further(int64_t a, int64_t b, int64_t threshold) { return a > b + threshold || b > a + threshold; }

/* Whether at least two indices of a pair that was written are flagged. */
static int is_inconsistent(size_t q, const struct lent *codebook, const struct lent *thresholds) {
    unsigned flagged = 0;
    for (size_t c = 0; c < DSR_FRAME_INDICES; c++) {
        size_t first = 2 * DSR_FRAME_INDICES * q + c, second = first + DSR_FRAME_INDICES, either = 0;
        for (size_t e = 0; e < 2; e++) {
            int32_t a = number_at(codebook, 128 * c + 2 * index_spoken(first) + e);
            int32_t b = number_at(codebook, 128 * c + 2 * index_spoken(second) + e);
            either |= (size_t)is_further(a, b, number_at(thresholds, 2 * c + e));
        }
        flagged += either != 0;
    }
    return flagged >= 2;
}

/* A pair that is not damaged is bad exactly if it is inconsistent and the next one is damaged or the one before it bad. */
static void check_judged(const uint8_t *damaged, const struct lent *report, size_t pairs, const struct lent *codebook,
                         const struct lent *thresholds) {
    for (size_t q = 0; q < pairs; q++) {
        int beside = (q + 1 < pairs && damaged[q + 1]) || (q > 0 && note_of(report->data, q - 1) != DSR_PAIR_GOOD);
        int bad = beside && is_inconsistent(q, codebook, thresholds);
        if (!damaged[q]) expect(note_of(report->data, q) == (bad ? DSR_PAIR_BAD : DSR_PAIR_GOOD), "a pair is judged otherwise than it is");
    }
}

/* Each damaged pair is named by its CRC, no other is, and an unnamed pair's frames are those that were written. */
static void check_named(const uint8_t *damaged, const struct lent *index, const struct lent *report, size_t m) {
    for (size_t q = 0; q < DSR_MULTIFRAME_PAIRS * m; q++) {
        uint8_t note = note_of(report->data, q);
        expect((note == DSR_PAIR_CRC) == damaged[q], "a damaged pair is not named, or another is");
        for (size_t i = 2 * DSR_FRAME_INDICES * q; i < 2 * DSR_FRAME_INDICES * (q + 1) && note == DSR_PAIR_GOOD; i++)
            expect(index->data[i] == index_spoken(i), "a good pair's frame is another");
    }
}

static void try_damage(void) {
    static uint8_t damaged[DSR_MULTIFRAME_PAIRS * DSR_MOST_MULTIFRAMES];
    write_octets(FRAMES + chance(chance(50) ? 100 : 3000));
    size_t m = octets_len / DSR_MULTIFRAME_OCTETS;
    uint64_t rate = octets[SYNC] & 3, type = octets[SYNC] >> 2 & 1;
    damage_image(damaged, m);
    struct lent in = lend_copy(octets, octets_len), index = lend_buffer(DSR_MULTIFRAME_INDICES * m);
    struct lent report = lend_buffer(DSR_MULTIFRAME_REPORT * m);
    struct lent codebook = lend_codebook(DSR_CODEBOOK_NUMBERS), thresholds = lend_thresholds(DSR_THRESHOLD_NUMBERS);
    uint64_t a[DSR_ANSWER_NUMBERS] = {0}, place = UNTOUCHED, choices = known_choice();
    uint32_t number = dsr_read(in.data, in.len, choices, (const int32_t *)codebook.data, DSR_CODEBOOK_NUMBERS,
                               (const int32_t *)thresholds.data, DSR_THRESHOLD_NUMBERS, index.data, index.len, report.data, report.len, a,
                               DSR_ANSWER_NUMBERS, &place);
    expect(number == DSR_DONE || number == DSR_READ_ALL_BAD, "a damaged image is refused");
    given[number]++;
    if (number == DSR_DONE) {
        expect(a[DSR_ANSWER_RATE] == rate && a[DSR_ANSWER_TYPE] == type && a[DSR_ANSWER_MULTIFRAMES] == m, "settings or length of a damaged image");
        check_reading(&in, &index, &report, a, choices);
        check_named(damaged, &index, &report, m);
        check_judged(damaged, &report, DSR_MULTIFRAME_PAIRS * m, &codebook, &thresholds);
        named++;
    } else {
        check_refused_reading(number, place, &in, &index, &report);
    }
    give_back(&index), give_back(&report);
    give_back_kept(&in, "reading touched the octets");
    give_back_kept(&codebook, "reading touched the codebook"), give_back_kept(&thresholds, "reading touched the thresholds");
}

/* --- hunting */

enum { SYNC_BITS = 8 * SYNC, FRONT_BITS = 8 * (SYNC + HEADER), FEW_PLACES = 20000 };

/* What a modem gives: an utterance at any bit, and idle bits. There is room for the longest and for idle bits beside each multiframe. */
static uint8_t modem[2 * sizeof octets];
static size_t modem_bits;

static unsigned bit_of(const uint8_t *from, uint64_t t) { return from[t / 8] >> t % 8 & 1; }

static void send_bit(unsigned bit) {
    if (modem_bits == 8 * sizeof modem) return;
    if (modem_bits % 8 == 0) modem[modem_bits / 8] = 0;
    modem[modem_bits / 8] |= (uint8_t)(bit << modem_bits % 8);
    modem_bits++;
}

static void send_octets(const uint8_t *from, size_t len) {
    for (size_t t = 0; t < 8 * len; t++) send_bit(bit_of(from, t));
}

/* Nothing, zeros, anything, or an inverse sync before anything. */
static void send_idle(uint32_t most) {
    uint32_t kind = chance(4), count = kind == 0 ? 0 : chance(most);
    if (kind == 3) send_octets(inverse_sync, SYNC);
    for (; count > 0; count--) send_bit(kind == 1 ? 0 : chance(2));
}

/* A multiframe, one in `one_in` of them with flips in its sync, one with flips in its header, and one with a flip anywhere. */
static void send_multiframe(const uint8_t *multiframe, uint32_t one_in) {
    uint8_t sent[DSR_MULTIFRAME_OCTETS];
    memcpy(sent, multiframe, sizeof sent);
    for (uint32_t flips = chance(one_in) == 0 ? chance(6) : 0; flips > 0; flips--) flip(sent, chance(SYNC_BITS));
    if (chance(one_in) == 0) add_to_header(sent + SYNC, places(chance(4)));
    if (chance(one_in) == 0) flip(sent, chance(DSR_MULTIFRAME_BITS));
    send_octets(sent, sizeof sent);
}

/* The multiframes of an utterance, idle bits between some, and some of them a second time at the end. */
static void send_utterance(void) {
    uint32_t m = (uint32_t)(octets_len / DSR_MULTIFRAME_OCTETS), one_in = chance(3) ? 1 + chance(20) : 10000;
    for (uint32_t k = 0; k < m; k++) {
        if (chance(one_in) == 0) send_idle(100);
        send_multiframe(octets + DSR_MULTIFRAME_OCTETS * k, one_in);
    }
    for (uint32_t more = chance(3); more > 0; more--) send_multiframe(octets + DSR_MULTIFRAME_OCTETS * chance(m), one_in);
}

/* A sync and a codeword anywhere: inside a multiframe it is passed over if the multiframe is found, and else it can hide the next one. */
static void put_false_front(void) {
    uint8_t front[SYNC + HEADER] = {0};
    if (modem_bits < FRONT_BITS) return;
    memcpy(front, whole_sync, SYNC);
    add_to_header(front + SYNC, dsr_header_encode((uint16_t)chance(65536)));
    uint32_t at = chance((uint32_t)modem_bits - FRONT_BITS + 1);
    for (uint32_t t = 0; t < FRONT_BITS; t++)
        if (bit_of(modem, at + t) != bit_of(front, t)) flip(modem, at + t);
}

static void fill_modem(void) {
    uint32_t kind = chance(20);
    modem_bits = 0;
    send_idle(40);
    if (kind == 0) {
        for (uint32_t bits = chance(4000); bits > 0; bits--) send_bit(chance(2));
    } else {
        write_octets(chance(60) == 0 ? DSR_MOST_FRAMES - chance(26) : few_frames());
        if (kind < 4) {
            for (uint32_t times = chance(5); times > 0; times--) mutate();
            send_octets(octets, octets_len);
        } else {
            send_utterance();
        }
    }
    if (chance(6) == 0) put_false_front();
    send_idle(60);
    while (modem_bits % 8 != 0) send_bit(chance(2));
}

static int in_range(uint64_t least) { return least >= DSR_LEAST_MATCH && least <= DSR_MOST_MATCH; }

static uint64_t some_least(void) {
    if (chance(12) != 0) return DSR_LEAST_MATCH + chance(5);
    return chance(2) ? chance(30) : UINT64_MAX - chance(20);
}

static uint64_t some_first_bit(void) {
    if (chance(3) != 0) return chance(4) ? 0 : chance(60);
    if (chance(8) == 0) return UINT64_MAX - chance(2000);
    return chance((uint32_t)modem_bits + 100);
}

static uint64_t places_left(const struct lent *in, uint64_t from) {
    uint64_t bits = 8 * (uint64_t)in->len;
    return from <= bits && bits - from >= DSR_MULTIFRAME_BITS ? bits - from - DSR_MULTIFRAME_BITS + 1 : 0;
}

static int passes(const uint8_t *in, uint64_t t, uint64_t least) {
    uint64_t matches = 0;
    uint32_t word = 0, flips;
    uint16_t message;
    for (uint64_t i = 0; i < SYNC_BITS; i++) matches += bit_of(in, t + i) == bit_of(whole_sync, i);
    if (matches < least) return 0;
    for (uint64_t i = SYNC_BITS; i < FRONT_BITS; i++) word |= (uint32_t)bit_of(in, t + i) << (i - SYNC_BITS);
    return dsr_header_read(word, &message, &flips) == DSR_DONE;
}

static void try_hunt(const struct lent *in, uint64_t from, uint64_t least) {
    uint64_t found = UNTOUCHED, tested = UNTOUCHED, place = UNTOUCHED, left = places_left(in, from);
    uint32_t number = dsr_hunt(in->data, in->len, from, least, &found, &tested, &place);
    expect(number == DSR_DONE || number == DSR_HUNT_MATCH || number == DSR_HUNT_NOWHERE, "a hunt's answer is no number of 02");
    expect((number == DSR_HUNT_MATCH) == !in_range(least), "refusal 21 against the range");
    given[number]++;
    if (number == DSR_DONE) {
        expect(found >= from && found - from < left, "a place was found where no multiframe's bits are left");
        expect(passes(in->data, found, least), "a place was found that does not pass");
        expect(tested == found - from + 1, "places tested are not those up to the place found");
        expect(place == UNTOUCHED, "a hunt that ended well touched the refusal's place");
    } else {
        expect(found == UNTOUCHED, "a refused hunt touched the place found");
        expect(place == (number == DSR_HUNT_MATCH ? least : from), "a refused hunt's place");
        expect(tested == (number == DSR_HUNT_MATCH ? 0 : left), "a refused hunt's places tested");
    }
    uint64_t failed = number == DSR_DONE ? tested - 1 : tested;
    for (uint64_t k = 0; k < failed && failed <= FEW_PLACES; k++) expect(!passes(in->data, from + k, least), "an earlier place passes");
}

/* What hunts one after the other find, as octets with whole syncs. */
struct gathered {
    size_t m;
    uint64_t tested, too_many_at;
    int too_many;
    uint8_t image[DSR_MULTIFRAME_OCTETS * DSR_MOST_MULTIFRAMES];
};

static void gather(const struct lent *in, uint64_t from, uint64_t least, struct gathered *g) {
    uint64_t at = from, found = 0, tested = 0, place = 0;
    g->m = 0, g->tested = 0, g->too_many = 0;
    while (dsr_hunt(in->data, in->len, at, least, &found, &tested, &place) == DSR_DONE) {
        g->tested += tested;
        if (g->m == DSR_MOST_MULTIFRAMES) {
            g->too_many = 1, g->too_many_at = found;
            return;
        }
        uint8_t *to = g->image + DSR_MULTIFRAME_OCTETS * g->m++;
        memset(to, 0, DSR_MULTIFRAME_OCTETS);
        memcpy(to, whole_sync, SYNC);
        for (size_t t = SYNC_BITS; t < DSR_MULTIFRAME_BITS; t++)
            if (bit_of(in->data, found + t)) flip(to, t);
        at = found + DSR_MULTIFRAME_BITS;
    }
    g->tested += tested;
}

/* What a hunting reading is asked. */
struct asked {
    uint64_t from, least, choices;
};

static uint32_t read_octets(const struct gathered *g, uint64_t choices, const struct rooms *r, struct lent *index, struct lent *report,
                            uint64_t *a, uint64_t *place) {
    return dsr_read(g->image, DSR_MULTIFRAME_OCTETS * g->m, choices, (const int32_t *)r->codebook.data, r->codebook.len / 4,
                    (const int32_t *)r->thresholds.data, r->thresholds.len / 4, index->data, index->len, report->data, report->len, a,
                    DSR_ANSWER_NUMBERS, place);
}

/* The refusals that come before anything is read, in their order; 0 if there is none. */
static uint32_t refused_before(const struct rooms *r, const struct asked *asked, const struct gathered *g, uint64_t *place) {
    *place = UNTOUCHED;
    if (r->answer.len / sizeof(uint64_t) < DSR_BITS_ANSWER_NUMBERS) return DSR_READ_ANSWER_SHORT;
    if (!is_known(asked->choices)) return DSR_NO_SUCH_CHOICE;
    *place = 0;
    if (!right_tables(r)) return DSR_READ_TABLES;
    *place = first_negative(&r->thresholds);
    if (has_negative(r)) return DSR_READ_THRESHOLD;
    *place = asked->least;
    if (!in_range(asked->least)) return DSR_HUNT_MATCH;
    *place = asked->from;
    if (g->m == 0) return DSR_HUNT_NOWHERE;
    *place = g->too_many_at;
    return g->too_many ? DSR_READ_TOO_MANY : DSR_DONE;
}

/* The answer is the octet reader's, then bits outside and places tested; both buffers are as the octet reader leaves them. */
static void check_bits_answer(const struct rooms *r, const struct gathered *g, const struct lent *index, const struct lent *report,
                              const uint64_t *a, uint64_t searched) {
    uint64_t got[DSR_BITS_ANSWER_NUMBERS];
    memcpy(got, r->answer.data, sizeof got);
    expect(memcmp(got, a, sizeof *a * DSR_ANSWER_NUMBERS) == 0, "what was found is read otherwise by octets");
    expect(got[DSR_ANSWER_OUTSIDE] + DSR_MULTIFRAME_BITS * got[DSR_ANSWER_MULTIFRAMES] == searched, "bits outside are miscounted");
    expect(got[DSR_ANSWER_TESTED] == g->tested, "places tested are not those of the hunts");
    expect(memcmp(r->index.data, index->data, index->len) == 0, "the index buffer is another than by octets");
    expect(memcmp(r->report.data, report->data, report->len) == 0, "the report is another than by octets");
    expect(stays_from(&r->answer, sizeof got), "numbers beyond the answer were touched");
    hunted++;
}

static void check_read_bits(const struct lent *in, const struct rooms *r, const struct asked *asked, const struct gathered *g,
                            uint32_t number) {
    struct lent index = lend_copy(r->index.copy, r->index.len), report = lend_copy(r->report.copy, r->report.len);
    uint64_t a[DSR_ANSWER_NUMBERS] = {0}, right_place;
    uint32_t right = refused_before(r, asked, g, &right_place);
    if (right == DSR_DONE) {
        right_place = UNTOUCHED;
        right = read_octets(g, asked->choices, r, &index, &report, a, &right_place);
    }
    expect(number == right && place_of(r) == right_place, "a hunting reading's number or place is not that of what was found");
    if (number == DSR_DONE) {
        check_bits_answer(r, g, &index, &report, a, 8 * in->len - asked->from);
    } else {
        expect(stays_from(&r->index, 0) && stays_from(&r->report, 0), "a refused hunting reading touched a buffer");
        expect(stays_from(&r->answer, 0), "a refused hunting reading touched the answer");
    }
    give_back(&index), give_back(&report);
}

static void try_read_bits(const struct lent *in, uint64_t from, uint64_t least) {
    static struct gathered g;
    gather(in, from, least, &g);
    struct rooms r = lend_rooms(g.m, DSR_BITS_ANSWER_NUMBERS);
    struct asked asked = {from, least, some_choices()};
    uint32_t number = dsr_read_bits(in->data, in->len, from, least, asked.choices, (const int32_t *)r.codebook.data, r.codebook.len / 4,
                                    (const int32_t *)r.thresholds.data, r.thresholds.len / 4, r.index.data, r.index.len, r.report.data,
                                    r.report.len, (uint64_t *)r.answer.data, r.answer.len / sizeof(uint64_t), (uint64_t *)r.place.data);
    expect(number < STATUSES, "a hunting reading's answer is no number of 01 or 02");
    given[number]++;
    check_read_bits(in, &r, &asked, &g, number);
    give_back_rooms(&r);
}

static void try_bits(void) {
    fill_modem();
    struct lent in = lend_copy(modem, modem_bits / 8);
    uint64_t from = some_first_bit(), least = some_least();
    try_hunt(&in, from, least);
    try_read_bits(&in, from, least);
    give_back_kept(&in, "hunting touched the octets");
}

/* --- rounds */

static void play_round(void) {
    state = (seed * 0x9E3779B97F4A7C15u) ^ (round_number * 0xD1342543DE82EF95u);
    chance(2), chance(2);
    try_header();
    try_stream();
    try_write();
    try_read();
    try_damage();
    try_bits();
    try_settle();
}

int main(int argc, char **argv) {
    time_t end = time(NULL) + (argc > 1 ? atoi(argv[1]) : 10);
    const char *given_seed = argc > 2 ? argv[2] : getenv("SEED");
    if (given_seed != NULL) seed = strtoull(given_seed, NULL, 10);
    printf("seed %llu\n", (unsigned long long)seed);
    fflush(stdout);
    if (argc > 3) {
        round_number = strtoull(argv[3], NULL, 10);
        play_round();
        return 0;
    }
    for (; time(NULL) < end; round_number++) play_round();
    printf("%llu rounds, %llu utterances read back, %llu damaged images with every damaged pair named, ",
           (unsigned long long)round_number, (unsigned long long)read_back, (unsigned long long)named);
    printf("%llu read with the codebook upside down, %llu at any bit, %llu of one multiframe by both rules, ", (unsigned long long)turned,
           (unsigned long long)hunted, (unsigned long long)only_ones);
    printf("%llu settled whatever stands behind\nanswers:", (unsigned long long)settled_early);
    for (unsigned i = 0; i < STATUSES; i++)
        if (given[i] > 0) printf(" %u:%llu", i, (unsigned long long)given[i]);
    printf("\n");
    return 0;
}
