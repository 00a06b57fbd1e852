/*
 * wko.h: the tie-pattern stepper for C.
 *
 * Link with libwko.a (`make lib` says where it is). The library needs nothing but memory that the caller lends: it allocates
 * nothing, keeps no state and may be called from several threads. Every call tests all of its numbers; what C cannot test stays
 * with the caller: a pointer must point to as many bytes as its length says (it may be NULL where the length is 0), and a buffer
 * that is written must not overlap what is read.
 *
 * A window is n symbols, one per byte, oldest first, n from 1 to 16. A weak order of n is a window in
 *   rank form:   each symbol is 1 plus the number of places that hold a smaller one (1,2,2 and 1,1,3, but not 1,1,2), or
 *   height form: the symbols present are exactly 0 to some h (0,1,1 and 2,0,1, but not 0,2,2).
 * There are a(n) weak orders of n, in either form.
 */
#ifndef WKO_H
#define WKO_H

#include <stddef.h>
#include <stdint.h>

#define WKO_LIBRARY_VERSION "4.3.3"
#define WKO_MAX_N 16     /* symbols of the longest window */
#define WKO_FRAME_LEN 40 /* bytes of a frame, and of its answer */
#define WKO_OPEN 255     /* an open place of a pattern */
#define WKO_LEVELS 16    /* levels of a table */

/* Why a call, a frame, a sheet or a level file is refused; wko_refusal_text has each in words. */
enum wko_refusal {
    WKO_SHORT_BUFFER = 1,
    WKO_FRAME_LENGTH = 2,
    WKO_FRAME_HEADER = 3,
    WKO_FRAME_KIND = 4,
    WKO_RESERVED_BYTE = 5,
    WKO_WINDOW_LENGTH = 6,
    WKO_RULE_NUMBER = 7,
    WKO_NOT_WEAK_ORDER = 8,
    WKO_LEVEL_SETTING = 9,
    WKO_NOT_BEGUN = 10,
    WKO_STEP_NUMBER = 11,
    WKO_ROUND_FINISHED = 12,
    WKO_NO_SUCH_PLACE = 13,
    WKO_SHEET_MALFORMED = 14,
    WKO_NO_FILLING = 15,
    WKO_LEVEL_FILE = 16,
    WKO_OTHER_VERSION = 17,
    WKO_OTHER_ROUND = 18,
    WKO_ROUND_IN_FORCE = 19
};

/* A refusal in words; 0 is none. */
static inline const char *wko_refusal_text(uint32_t number)
{
    static const char *const texts[] = {
        "not refused",
        "the buffer is too short",
        "the frame is not 40 bytes long",
        "the frame does not start with WKO1 or WKO2",
        "the kind of the frame is not B, S or Q",
        "a byte of the frame that must be zero is not, or the round number is zero",
        "n is out of range",
        "the rule is not 1, 2 or 3",
        "the window is no weak order of n in the form that is asked for, or the pattern is none of n",
        "the level setting is out of range",
        "no round has begun",
        "the step number is neither the next one nor the last one again",
        "the round is finished",
        "the place is not below a(n)",
        "the sheet is malformed",
        "no weak order of n agrees with the pattern",
        "the level file is not as described",
        "the frame is in another version than the round's begin frame",
        "the step is of another round",
        "the round number is that of the round in force",
    };
    return number < sizeof texts / sizeof texts[0] ? texts[number] : "no refusal has this number";
}

/* What a direct call returns, 256 + number for a refusal, as the bare number of the refusal, or 0 where it is done.
 * For direct calls only: wko_exchange and answers have the bare number. */
static inline uint32_t wko_refusal_of(uint32_t returned)
{
    return returned < 256 ? 0 : returned - 256;
}
#define WKO_REFUSED(returned) wko_refusal_of(returned)

#ifdef __cplusplus
extern "C" {
#endif

/*
 * Direct calls. Each returns 0 when it is done (wko_next_symbol and wko_previous_symbol: the symbol; wko_rotation_start and wko_period: a
 * number up to n), or 256 + the number of a refusal:
 *   257 (1)   the buffer is too short
 *   262 (6)   n is not 1 to 16
 *   263 (7)   the rule is not 1, 2 or 3
 *   264 (8)   the window is not n long, or no weak order of n in the form that the call takes;
 *             the pattern is not n long, or has a byte that is neither 255 nor below n
 *   269 (13)  the place is not below a(n)
 *   271 (15)  no weak order of n agrees with the pattern
 * The tests are made in the order 6, 7, 1, then 8 or 13, then 15, without those that have no meaning in a call, and the first that fails
 * decides.
 * A refused call writes no byte.
 */

/* The symbol that follows the window under a rule: one step drops the oldest symbol and appends this one.
 * Rule 1 takes a window in rank form, rules 2 and 3 take one in height form. A round of a(n) such steps meets each weak order of n
 * once. Returns the symbol, 0 to 16, or a refusal 6, 7, 8. */
uint32_t wko_next_symbol(uint64_t n, uint64_t rule, const uint8_t *window, size_t window_len);

/* The step back: just one window of n in the rule's form is sent to this one by the rule. It is the returned symbol, and the window without its
 * newest behind: under rule 2 the symbol before 1,0,1 is 0, since 0,1,0 is followed by 1. So wko_next_symbol and this call undo each other.
 * Takes windows as wko_next_symbol does. Returns the symbol, 0 to 16, or a refusal 6, 7, 8. */
uint32_t wko_previous_symbol(uint64_t n, uint64_t rule, const uint8_t *window, size_t window_len);

/* Where a rotation of the window starts, counted from 1: the least rotation in dictionary order under rule 1, the greatest under rules 2 and
 * 3, and the least index where it starts at several. A ring is all rotations of one window: read round from there, two windows of n in the
 * rule's form are equal just if they lie on one ring. 3,1,3,1 starts at 2 under rule 1. Returns 1 to n, or a refusal 6, 7, 8. */
uint32_t wko_rotation_start(uint64_t n, uint64_t rule, const uint8_t *window, size_t window_len);

/* The ring length of the window: how many of its rotations are different, 2 for 3,1,3,1 and 1 for 1,1,1,1. It divides n, and the start is
 * never past it. The rule says the form of the window only. Returns 1 to n, or a refusal 6, 7, 8. */
uint32_t wko_period(uint64_t n, uint64_t rule, const uint8_t *window, size_t window_len);

/* From rank form to height form: the height of a place is the number of different smaller symbols in the window.
 * Takes a window in rank form; writes n bytes to the front of out, which has out_len >= n. Refusals 6, 1, 8. */
uint32_t wko_rank_to_height(uint64_t n, const uint8_t *window, size_t window_len, uint8_t *out, size_t out_len);

/* From height form to rank form. Takes a window in height form; otherwise as above. Refusals 6, 1, 8. */
uint32_t wko_height_to_rank(uint64_t n, const uint8_t *window, size_t window_len, uint8_t *out, size_t out_len);

/* a(n), the number of weak orders of n: the steps of a round, and the number of places.
 * Writes 8 bytes, little-endian, to the front of out, which has out_len >= 8. Refusals 6, 1. */
uint32_t wko_count(uint64_t n, uint8_t *out, size_t out_len);

/* The place of a window in height form: how many windows of n in height form stand before it in dictionary order, 0 to a(n) - 1.
 * Writes 8 bytes, little-endian, to the front of out, which has out_len >= 8. Refusals 6, 1, 8. */
uint32_t wko_place(uint64_t n, const uint8_t *window, size_t window_len, uint8_t *out, size_t out_len);

/* The window of n in height form at a place. Writes n bytes to the front of out, which has out_len >= n. Refusals 6, 1, 13. */
uint32_t wko_window_at(uint64_t n, uint64_t place, uint8_t *out, size_t out_len);

/* A window from a pattern: n bytes in height form, each a height below n that is fixed there, or WKO_OPEN. Height 0 is the highest level.
 * Writes the first in dictionary order of the weak orders of n in height form that have every fixed byte, n bytes, to the front of out, which
 * has out_len >= n: of those that agree, the one with the least place. So one pattern is filled alike on every bench; one that is a weak order
 * itself, with no open place, is its own answer.
 * Refusals 6, 1, 8, 15; 15 is given just where no weak order of n agrees: 0,0,2 has no open place for the missing 1. */
uint32_t wko_fill(uint64_t n, const uint8_t *pattern, size_t pattern_len, uint8_t *out, size_t out_len);

/*
 * For firmware: a session driven by frames of 40 bytes. wko_frames.h builds frames and reads answers.
 *
 * A session goes in by value and comes back by value; the caller keeps it where it likes. Any values of the fields may be handed in:
 * a session whose n, rule, window or level setting a begin frame would be refused for, or with more than a(n) steps done, or with version 2
 * and round 0, counts as not begun. Sessions are changed by frames and level files alone; the fields are there to be kept and looked at. Keep
 * them field by field: the bytes between the fields are not defined. Keep a checksum beside them, since a session with a flipped bit can be
 * another good session. Keep the session before the answer is sent: a device that answers first and then loses power comes back one step
 * behind its host.
 *
 * Let d be symbol - 1 under rule 1, and the symbol itself under rules 2 and 3. The level of the symbol is the multiple of 25 nearest to
 * top - d * spacing: -13 rounds to -25, -12 and 12 to 0. The smallest symbol has the highest level, and different symbols have different
 * levels. A setting is refused (9) unless top is -10000 to 2000, spacing is 25 to 500 and top - (n - 1) * spacing, the lowest that n
 * symbols can come to before rounding, is at least -12000.
 *
 * Where top and spacing are both 0 the level is entry d of a table: 16 levels, each a multiple of 25 from -12000 to 2000 and lower than the
 * one before. Any other table counts as none, and then the setting is refused (9). A session holds the table that was loaded last. A begin
 * frame with top and spacing 0 takes a copy of it, and that round goes by its copy, whatever is loaded later: for its levels, and for whether it
 * counts as begun.
 */
struct wko_setting {
    int16_t top;               /* the level of the smallest symbol before rounding, in hundredths of a dBm */
    uint16_t spacing;          /* how much lower the level of the next symbol is before rounding, in hundredths of a dB */
    int16_t table[WKO_LEVELS]; /* the round's copy of a table, in hundredths of a dBm, if top and spacing are 0; frames do not carry it */
};

/* Even spacing, without a table, to start a variable with: struct wko_setting s = WKO_EVEN(-1000, 100); */
#define WKO_EVEN(top, spacing) {(top), (spacing), {0}}

struct wko_session {
    uint8_t begun;   /* 1: a round has begun; any other value: none has */
    uint8_t version; /* of the begin frame: 2 is WKO2, any other value WKO1 */
    uint8_t round;   /* the round number of a WKO2 round, 1 to 255; of no account in a WKO1 round, whatever it is */
    size_t n;
    uint8_t rule;
    struct wko_setting setting;
    uint8_t window[WKO_MAX_N]; /* the window after the last step, zeros behind its n symbols */
    uint64_t done;             /* steps done since the begin frame */
    int16_t held[WKO_LEVELS];  /* the table that was loaded last; zeros where none was */
};

struct wko_exchanged {
    struct wko_session session; /* the session after the frame; unchanged where the frame is refused */
    uint32_t number;            /* 0, or the number of the refusal, 1 to 12 or 17 to 19 */
};

struct wko_loaded {
    struct wko_session session; /* the session with the table; unchanged where the file is refused */
    uint32_t number;            /* 0, or 16 */
};

/* A session that has not begun, and holds no table: version 1, round 0. */
struct wko_session wko_fresh(void);

/*
 * Loads a level file of at most 512 bytes: the line "d level", then sixteen lines with a number and a level each, "0 2000" to
 * "15 -12000" say, for d = 0 to 15 in order. Decimals without leading zeros, a minus before a level below zero, one space, and a line
 * feed at the end of every line. The levels are as for a table above.
 * The table replaces the one that the session holds, and nothing else changes: a round that has begun goes on as it was. Any other
 * file is refused with 16, and the session stays as it was.
 */
struct wko_loaded wko_load_levels(struct wko_session session, const uint8_t *file, size_t file_len);

/*
 * Handles one frame of any length and writes its answer to the first 40 bytes of the buffer; bytes past 40 are never touched.
 * Numbers are little-endian. Where a column has 0, the bytes must be zero (refusal 5; in a start window 8) and are zero in an answer.
 * Frames have two versions: where a column has two entries, the first is for WKO1 and the second for WKO2.
 *
 *   bytes   begin            step          query        answer
 *   0-3     WKO1 / WKO2      WKO1 / WKO2   WKO1 / WKO2  WKA1 / WKA2
 *   4       B                S             Q            0
 *   5       n                0             0            symbol (step), else 0
 *   6       rule             0             0            number of different symbols in the window
 *   7       0 / round        0 / round     0            0 / round
 *   8-15    0                step number   0            steps done
 *   16-17   top, signed      0             0            16-19: level, signed (step), else 0
 *   18-19   spacing          0             0
 *   20-23   0                0             0            0
 *   24-39   start, 0 behind  0             0            window after the frame, 0 behind
 *
 * A step frame numbered done + 1 steps; one numbered done, at least 1, is a resend: it changes nothing and gets the same answer.
 *
 * For hosts (the README has all rules). A window is the last n sweeps, and a step answers its newest symbol alone. So the last n - 1 symbols of the
 * start window are played and measured before step 1, at the levels that wko_level gives (wko_frames.h); otherwise the windows after steps 1 to
 * n - 1 are never measured whole. A step counts when its own answer has come, which wko_is_step_answer tells, and its level has been measured
 * and logged; until then it is sent again, whatever else comes. A refusal does not say which frame it refuses.
 *
 * The round number of a WKO2 frame is 1 to 255; 0 is refused (5). A round is stepped and queried by frames of the version that began it (17),
 * and in WKO2 by steps with its number alone (18): a step that comes late, when another round has begun, moves nothing. A WKO1 begin frame
 * begins a round at any time. The WKO2 round in force is the session's, where it counts as begun and version is 2. A WKO2 begin frame with
 * another number begins a round; one with the number in force is refused (19), unless no step is done and all its bytes are those of the begin
 * frame in force: then it is a resend, changes nothing, takes no table that was loaded since, and gets the same answer.
 *
 * The answer to a refused frame is WKA1, or WKA2 where the frame is WKO2 and 40 bytes long, the number of the refusal and 35 zeros, and the
 * session stays as it was.
 * Refused, in this order: 1 buffer under 40 bytes (nothing is written); 2 frame not 40 bytes; 3 neither WKO1 nor WKO2; 4 kind unknown; 5 a
 * byte that must be zero is not, or round number 0; then begin, unless it is a resend: 6 n, 7 rule, 8 window, 9 level setting, 19 round in
 * force; step and query: 10 not begun, 17 other version; step: 18 other round, 11 number, 12 round finished.
 */
struct wko_exchanged wko_exchange(struct wko_session session, const uint8_t *frame, size_t frame_len, uint8_t *answer, size_t answer_len);

#ifdef __cplusplus
}
#endif

/* The layout that libwko.a was built for: x86-64 Linux, System V ABI. Another one does not compile. A host that only sends frames, and does not
 * link the library, defines WKO_FRAMES_ONLY first and may be any machine. */
#ifndef WKO_FRAMES_ONLY
#define WKO_LAYOUT                                                                                                                          \
    (sizeof(struct wko_setting) == 36 && offsetof(struct wko_setting, top) == 0 && offsetof(struct wko_setting, spacing) == 2               \
     && offsetof(struct wko_setting, table) == 4                                                                                           \
     && sizeof(struct wko_session) == 112 && offsetof(struct wko_session, begun) == 0 && offsetof(struct wko_session, version) == 1         \
     && offsetof(struct wko_session, round) == 2 && offsetof(struct wko_session, n) == 8 && offsetof(struct wko_session, rule) == 16        \
     && offsetof(struct wko_session, setting) == 18 && offsetof(struct wko_session, window) == 54                                          \
     && offsetof(struct wko_session, done) == 72 && offsetof(struct wko_session, held) == 80                                               \
     && sizeof(struct wko_exchanged) == 120 && offsetof(struct wko_exchanged, session) == 0 && offsetof(struct wko_exchanged, number) == 112 \
     && sizeof(struct wko_loaded) == 120 && offsetof(struct wko_loaded, session) == 0 && offsetof(struct wko_loaded, number) == 112)
#if defined __cplusplus && __cplusplus >= 201103L
static_assert(WKO_LAYOUT, "wko.h: the structs are not laid out as in libwko.a");
#elif defined __STDC_VERSION__ && __STDC_VERSION__ >= 201112L
_Static_assert(WKO_LAYOUT, "wko.h: the structs are not laid out as in libwko.a");
#else
extern const char wko_layout[WKO_LAYOUT ? 1 : -1]; /* the structs are not laid out as in libwko.a where this has a negative length */
#endif
#undef WKO_LAYOUT
#endif

#endif
