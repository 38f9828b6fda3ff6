/* Cementoad: a clock for machines that stamp bookings, and its update slips.
 *
 * Link with target/staticlib/libcementoad.a, which tools/archive makes for x86-64 Linux. Times and values are whole
 * nanoseconds, and now is what the caller's own counter says. Any number may be handed in, in any field; each call
 * comes back, with a value or with the number of one refusal, 0 for none. Nothing is allocated, and nothing is kept
 * between calls: callers who share a clock order its updates themselves. docs/REFERENCE.md tells more. */
#ifndef CEMENTOAD_H
#define CEMENTOAD_H

#include <stdbool.h>
#include <stddef.h>
#include <stdint.h>

/* An answer that is dropped is an update that is lost. */
#if defined(__GNUC__)
#define CEMENTOAD_ANSWERS __attribute__((warn_unused_result))
#else
#define CEMENTOAD_ANSWERS
#endif

#ifdef __cplusplus
extern "C" {
#endif

/* ---- the version */

/* The version of the boundary that this header declares. It goes up with every change of a struct, a function or a
 * number that callers were built with, and with every new refusal. */
#define CEMENTOAD_ABI 5

/* The archive's version. Where it differs from CEMENTOAD_ABI, this header is too old or too new for the archive, and
 * nothing else of it may be called. */
CEMENTOAD_ANSWERS
uint32_t cementoad_abi(void);

/* ---- numbers */

/* The end of the range of times and values, 2^63 - 1. */
#define CEMENTOAD_END INT64_C(9223372036854775807)
/* The end for synthetic and reference of a version 2 request and slip, 2^61 - 1. */
#define CEMENTOAD_VERSION_2_END INT64_C(2305843009213693951)
/* The widest rate adjustment, in parts per million. */
#define CEMENTOAD_MAX_RATE INT32_C(1000)
/* The widest step of a running clock's rate, either way, in parts per million. A start may have any permitted rate. */
#define CEMENTOAD_MAX_RATE_STEP INT32_C(200)
/* The error bound that means unknown. */
#define CEMENTOAD_UNKNOWN_ERROR UINT64_MAX
/* The bytes of the longest slip. */
#define CEMENTOAD_LONGEST_SLIP 28

/* The bits of a creation word: readings never fall while the times don't; no update moves the clock at that now while it
 * runs, not by a millionth of a nanosecond; the clock starts at creation. */
#define CEMENTOAD_MONOTONIC UINT8_C(128)
#define CEMENTOAD_CONTINUOUS UINT8_C(64)
#define CEMENTOAD_AUTO_START UINT8_C(32)

/* The parts of an update word: one of its two versions, and a flag for each argument. Version 3 is for a synthetic or a
 * reference past CEMENTOAD_VERSION_2_END. */
#define CEMENTOAD_VERSION_2 (UINT64_C(2) << 58)
#define CEMENTOAD_VERSION_3 (UINT64_C(3) << 58)
#define CEMENTOAD_SYNTHETIC (UINT64_C(1) << 57)
#define CEMENTOAD_REFERENCE (UINT64_C(1) << 56)
#define CEMENTOAD_RATE (UINT64_C(1) << 55)
#define CEMENTOAD_ERROR (UINT64_C(1) << 54)

/* ---- refusals, by the paper's numbers */

enum cementoad_refusal {
    /* Nothing is refused. */
    CEMENTOAD_NO_REFUSAL = 0,
    /* Now lies outside 0..END. */
    CEMENTOAD_NOW_OUTSIDE = 1,
    /* Now lies before the clock's latest time. */
    CEMENTOAD_NOW_EARLY = 2,
    /* A bit is set that must be zero, or a version isn't known. */
    CEMENTOAD_WORD_WRONG = 3,
    /* No argument is flagged. */
    CEMENTOAD_NOTHING_FLAGGED = 4,
    /* A time or a value lies outside its range. */
    CEMENTOAD_VALUE_OUTSIDE = 5,
    /* A rate lies outside -1000..1000. */
    CEMENTOAD_RATE_OUTSIDE = 6,
    /* A reference comes with neither a value nor a rate. */
    CEMENTOAD_REFERENCE_ALONE = 7,
    /* The clock isn't started, and what is asked needs one that is. */
    CEMENTOAD_NOT_STARTED = 8,
    /* A continuous clock is handed a reference, at its start or later. */
    CEMENTOAD_CONTINUOUS_REFERENCE = 9,
    /* A continuous clock that runs is to be set. */
    CEMENTOAD_CONTINUOUS_SET = 10,
    /* A monotonic clock that runs is handed a value and a rate at once. */
    CEMENTOAD_MONOTONIC_SET_AND_RATE = 11,
    /* A line's value lies outside 0..END where it begins, or above END at now. */
    CEMENTOAD_LINE_OUTSIDE = 12,
    /* The clock would show less than its backstop. */
    CEMENTOAD_BELOW_BACKSTOP = 13,
    /* A monotonic clock that runs would show less than it does. */
    CEMENTOAD_MONOTONIC_BACK = 14,
    /* A new clock is to be continuous without being monotonic. */
    CEMENTOAD_CONTINUOUS_NOT_MONOTONIC = 15,
    /* A new clock's backstop lies outside 0..END. */
    CEMENTOAD_BACKSTOP_OUTSIDE = 16,
    /* A new clock is to start at once, with its backstop ahead of now. */
    CEMENTOAD_BACKSTOP_AHEAD = 17,
    /* There are fewer bytes than what is read calls for. */
    CEMENTOAD_TOO_SHORT = 18,
    /* A padding bit is set. */
    CEMENTOAD_PADDING_SET = 19,
    /* Bytes follow what is read. */
    CEMENTOAD_BYTES_LEFT_OVER = 20,
    /* The buffer is too short for what is written. */
    CEMENTOAD_BUFFER_SHORT = 21,
    /* A clock that runs is handed a rate more than 200 from its own. */
    CEMENTOAD_RATE_STEP = 22,
    /* A slip has version 3, though version 2 would hold it. */
    CEMENTOAD_VERSION_NEEDLESS = 31,
    /* Not of the paper, and checked before all others: what is handed in for a clock fails the test that is told at
     * struct cementoad_clock. */
    CEMENTOAD_NOT_A_CLOCK = 255
};

/* Whether the refusal's public name is INVALID_ARGS. */
static inline bool cementoad_is_invalid_args(uint8_t refusal)
{
    return refusal >= CEMENTOAD_WORD_WRONG && refusal <= CEMENTOAD_BACKSTOP_AHEAD;
}

/* ---- structs. Bytes between the fields may hold anything: compare and store structs field by field. */

/* A line. At reference it stands at synthetic nanoseconds and remainder millionths of a nanosecond; in each nanosecond
 * it gains 1,000,000 + rate millionths. Its value at a time is where it stands then, rounded down to a whole
 * nanosecond, also before reference. */
struct cementoad_line {
    /* The reference time at which the line begins, in nanoseconds. */
    int64_t reference;
    /* Its value there, in nanoseconds. */
    int64_t synthetic;
    /* How far above that it stands there, in millionths of a nanosecond, 0 to 999,999. It is 0 at a start and where a
     * value is set; a rate alone takes it, as it takes the value, from where the old line stands. */
    uint32_t remainder;
    /* The rate adjustment, in parts per million. */
    int32_t rate;
};

/* A clock. Take it from cementoad_create and cementoad_update, and hand it on as it is. Each call on a clock first
 * tests what it is handed, and is refused with CEMENTOAD_NOT_A_CLOCK unless creation would take the word and the
 * backstop at the latest time, and
 *   - started is 1, the line's reference and synthetic lie in 0..END, its remainder in 0..999,999 and its rate in
 *     -1000..1000, and its value at the latest time is not below the backstop; or
 *   - started is 0, auto start is not set, and line, error and generation are as creation leaves them.
 * So zeros are no clock. Of a made-up clock that passes nothing is promised but this: each call ends and answers by
 * the same rules, what an update hands back passes again, readings lie in 0..END and not under the backstop, and a
 * refused update hands back every field as it was. */
struct cementoad_clock {
    /* The line that the clock follows, zeros before the start. */
    struct cementoad_line line;
    /* The least that the clock ever shows. */
    int64_t backstop;
    /* The time of the latest accepted update, or of creation before any. */
    int64_t latest;
    /* The error bound in nanoseconds, CEMENTOAD_UNKNOWN_ERROR where it is unknown. */
    uint64_t error;
    /* 1 at creation, one more with each accepted update, from 2^32 - 1 on to 0. */
    uint32_t generation;
    /* The creation word. */
    uint8_t word;
    /* 1 once the clock is started, 0 before. */
    uint8_t started;
};

/* An update's word and arguments. The word's flags say which arguments count, its version where synthetic and reference
 * end: at CEMENTOAD_VERSION_2_END or at CEMENTOAD_END. */
struct cementoad_request {
    /* The version and the flags. */
    uint64_t word;
    /* The value to set, in nanoseconds. */
    int64_t synthetic;
    /* The reference time at which the new line has its value, in nanoseconds; now where it isn't flagged. */
    int64_t reference;
    /* The rate adjustment, in parts per million. */
    int32_t rate;
    /* The error bound, in nanoseconds. */
    uint64_t error;
};

/* A new clock. A refused creation gives zeros, which are not a clock. */
struct cementoad_created {
    struct cementoad_clock clock;
    uint8_t refusal;
};

/* The clock after an update, or with a refusal what was handed in, unaltered, whether it is a clock or not. */
struct cementoad_updated {
    struct cementoad_clock clock;
    uint8_t refusal;
};

/* A reading, 0 where it is refused. */
struct cementoad_reading {
    uint8_t refusal;
    int64_t value;
};

/* What a clock tells of itself at a time. */
struct cementoad_details {
    /* Whether the clock is started. */
    bool started;
    /* The line that the clock follows, zeros before the start. */
    struct cementoad_line line;
    /* The error bound in nanoseconds, CEMENTOAD_UNKNOWN_ERROR where it is unknown. */
    uint64_t error;
    /* One more with each accepted update, from 2^32 - 1 on to 0. Where two records of one clock, neither of them
     * refused, have the same, and fewer than 2^32 updates were accepted between, none was. */
    uint32_t generation;
    /* The time of the latest accepted update, or of creation before any. */
    int64_t latest;
    /* The creation word. */
    uint8_t word;
    /* The least that the clock ever shows. */
    int64_t backstop;
    /* The time that was asked about. */
    int64_t now;
};

/* Details beside their refusal, which leaves them zeros. */
struct cementoad_detailed {
    uint8_t refusal;
    struct cementoad_details details;
};

/* A request, read from a slip, and how many bytes the slip used, beside its refusal, which leaves both zeros. */
struct cementoad_received {
    struct cementoad_request request;
    size_t length;
    uint8_t refusal;
};

/* How many bytes of a slip were written, 0 where it is refused. */
struct cementoad_written {
    size_t length;
    uint8_t refusal;
};

/* ---- clocks */

/* A clock, or refusal 1, 3, 15, 16 or 17. Only with auto start does it run at once. */
CEMENTOAD_ANSWERS
struct cementoad_created cementoad_create(uint8_t word, int64_t backstop, int64_t now);

/* The clock's value at now, the backstop before the start; or refusal 1, 2, 12 or 255. */
CEMENTOAD_ANSWERS
struct cementoad_reading cementoad_read(struct cementoad_clock clock, int64_t now);

/* The clock as the request leaves it, or unaltered with refusal 1 to 14, 22 or 255. */
CEMENTOAD_ANSWERS
struct cementoad_updated cementoad_update(struct cementoad_clock clock, struct cementoad_request request, int64_t now);

/* What the clock tells of itself at now, or refusal 1, 2 or 255. */
CEMENTOAD_ANSWERS
struct cementoad_detailed cementoad_get_details(struct cementoad_clock clock, int64_t now);

/* Whether it is a clock and started. */
CEMENTOAD_ANSWERS
bool cementoad_is_started(struct cementoad_clock clock);

/* ---- slips. A pointer leads to as many bytes as the next argument says, and is never NULL, not even for 0 bytes.
 * Nobody else writes there during the call. */

/* The request of the slip on the front of the bytes, whatever follows it, or refusal 3, 6, 18, 19 or 31. The word has
 * the slip's version, which need not be the one that the request had before it was written. It never answers 20: where
 * nothing may follow the slip, call cementoad_read_single_slip. The answer's length says how many bytes the slip used;
 * the rest begins at bytes + length and has size - length bytes. To read slips in a row, go on with the rest until it
 * has no bytes, and stop where a slip is refused: its length is 0, and a loop that goes on never ends. */
CEMENTOAD_ANSWERS
struct cementoad_received cementoad_read_slip(const uint8_t *bytes, size_t size);

/* The request of a slip that is all of the bytes, or refusal 3, 6, 18, 19, 31 or, tested last, 20. */
CEMENTOAD_ANSWERS
struct cementoad_received cementoad_read_single_slip(const uint8_t *bytes, size_t size);

/* Writes the request as a slip to the front of the buffer, or answers refusal 3, 5, 6 or 21. The slip has version 2
 * where no flagged synthetic or reference lies past CEMENTOAD_VERSION_2_END, else version 3, whichever of them the word
 * has. No other byte is touched, and none where it is refused. The old bytes have no effect, but lent bytes count as
 * filled: fill a new buffer before lending it. */
CEMENTOAD_ANSWERS
struct cementoad_written cementoad_write_slip(struct cementoad_request request, uint8_t *buffer, size_t size);

/* How many bytes the request's slip has: what writing it answers, given room. 0 where writing it is refused with 3, 5
 * or 6, whatever the room. */
CEMENTOAD_ANSWERS
size_t cementoad_slip_length(struct cementoad_request request);

#ifdef __cplusplus
}
#endif

#endif
