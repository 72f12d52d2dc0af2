/*
 * Heukelvos for C: a disciplined clock after README.kern and RFC 1589, whose calls are proved. Link the static library beside it, and that of a
 * rig, for heukelvos_event_at:
 *
 *     (cd crates/heukelvos && rt lib)
 *     gcc -Ic program.c crates/heukelvos/out/libheukelvos.a
 *
 *     (cd crates/heukelvos_rig && rt lib)
 *     gcc -Ic program.c crates/heukelvos_rig/out/libheukelvos_rig.a crates/heukelvos/out/libheukelvos.a
 *
 * x86-64 Linux, C99 or later, or C++. The libraries have no data that change, allocate nothing, keep nothing between two calls, and call
 * nothing (but memcpy, should the compiler want it), so that a timer handler may call them, and several clocks may be used at once. They are
 * user-space code: they use SSE registers and the red zone below the stack, which a signal handler has saved and a bare interrupt has not.
 *
 * Every call takes any values: a clock that is not sound, or an argument out of its range, gets its refusal number, and nothing is changed.
 * Of a call on one clock the lowest number that applies is given; heukelvos_event_at has an order of its own. What C itself must see to:
 *   - a pointer is not null, and points to a whole object, aligned as its type (for a label, to `length` bytes; for a rig, to all of its
 *     `clocks` clocks, and for 0 of them it is not null either), that nothing else reads or writes until the call returns;
 *   - a handler that ticks a clock is held off while the same clock is used elsewhere: around a call that it is lent to; by value, from the
 *     copy of the clock that goes in until the answer's clock is stored, or the ticks made in between are lost; for a reading or a label,
 *     while the clock is copied;
 *   - a bool holds 0 or 1, as every conversion to it gives; in an event that of `stop` too, whatever the code is.
 *
 * What is promised of each call, and by which definition: docs/REFERENCE.md, "From C". test/crossing.sh and
 * test/c_program.sh hold this file to the crates.
 */
#ifndef HEUKELVOS_H
#define HEUKELVOS_H

#include <stdbool.h>
#include <stddef.h>
#include <stdint.h>

#ifdef __cplusplus
extern "C" {
#endif

/* Refusals. Each call says below which of them it can answer; 10, 11, 13 and 15 are those of the readers, which C has not yet. */
enum heukelvos_refusal {
	HEUKELVOS_ACCEPTED = 0,
	HEUKELVOS_REFUSED_STATE = 1,     /* a field of the clock lies outside its range, or a number is no kind of device */
	HEUKELVOS_REFUSED_TIME = 2,      /* a setting outside the ranges of seconds or microseconds */
	HEUKELVOS_REFUSED_LAST = 3,      /* a tick that would roll over from the last second */
	HEUKELVOS_REFUSED_MODE = 4,      /* a mode above 63 */
	HEUKELVOS_REFUSED_OFFSET = 5,    /* the selected offset is not within -127,999 to 127,999 us */
	HEUKELVOS_REFUSED_FREQUENCY = 6, /* the selected frequency is not strictly between -1,677,721,600 and 1,677,721,600 */
	HEUKELVOS_REFUSED_ERROR = 7,     /* a selected error is above 16,000,000 us */
	HEUKELVOS_REFUSED_STATUS = 8,    /* the selected status is above 4 */
	HEUKELVOS_REFUSED_CONSTANT = 9,  /* the selected time constant is above 4 */
	HEUKELVOS_REFUSED_ENDED = 10,    /* bytes that end inside a number, a record or an event */
	HEUKELVOS_REFUSED_FORM = 11,     /* a number that is not in its shortest form, or too long */
	HEUKELVOS_REFUSED_FIELD = 12,    /* an unknown version or code, or a field out of range */
	HEUKELVOS_REFUSED_BEYOND = 13,   /* bytes behind a record's end, or too long a history */
	HEUKELVOS_REFUSED_ROOM = 14,     /* a buffer shorter than what is to be written */
	HEUKELVOS_REFUSED_LABEL = 15,    /* not a label */
	HEUKELVOS_REFUSED_CEILING = 16,  /* a ceiling above 65,536 ticks */
	HEUKELVOS_REFUSED_SOON = 17,     /* an offset fewer than 64 rollovers after the last accepted one */
	HEUKELVOS_REFUSED_PLACE = 18,    /* a place beyond the table of a rig */
	HEUKELVOS_REFUSED_TABLE = 19     /* a table of more than eight clocks */
};

/* Status. TIME_BAD is 4 here, and 5 in today's sys/timex.h, where 4 is TIME_WAIT. */
enum heukelvos_status {
	HEUKELVOS_TIME_OK = 0,  /* synchronized */
	HEUKELVOS_TIME_INS = 1, /* a second is to be inserted at the end of the day */
	HEUKELVOS_TIME_DEL = 2, /* the last second of the day is to be deleted */
	HEUKELVOS_TIME_OOP = 3, /* the inserted second is in progress */
	HEUKELVOS_TIME_BAD = 4  /* not synchronized */
};

/* The kind of a clock's device. */
enum heukelvos_kind {
	HEUKELVOS_KIND_256 = 0, /* the 256 Hz recorder: a second has 255 to 257 ticks */
	HEUKELVOS_KIND_1024 = 1 /* the 1,024 Hz recorder: a second has 1,023 to 1,025 ticks */
};

/* The bits of a request's mode. */
enum heukelvos_mode {
	HEUKELVOS_ADJ_OFFSET = 1,
	HEUKELVOS_ADJ_FREQUENCY = 2,
	HEUKELVOS_ADJ_MAXERROR = 4,
	HEUKELVOS_ADJ_ESTERROR = 8,
	HEUKELVOS_ADJ_STATUS = 16,
	HEUKELVOS_ADJ_TIMECONST = 32
};

/*
 * The code of an event on a rig. A history has codes of its own (docs/REFERENCE.md, "Histories"): there 0 is any
 * number of ticks, and 4 asks for the summary.
 */
enum heukelvos_event_code {
	HEUKELVOS_EVENT_TICK = 0,
	HEUKELVOS_EVENT_SETTING = 1,
	HEUKELVOS_EVENT_REQUEST = 2,
	HEUKELVOS_EVENT_READING = 3,
	HEUKELVOS_EVENT_CATCH_UP = 4
};

/*
 * What the units are worth, and the ends of the ranges. All are 64 bits wide and signed, so that what a caller
 * works out with them, as ppm * HEUKELVOS_FREQUENCY_PER_PPM of an int, keeps its value until it is judged. They
 * may stand in an #if and as the length of an array.
 */
#define HEUKELVOS_PHASE_PER_MICRO INT64_C(268435456)  /* phase units in a microsecond */
#define HEUKELVOS_OFFSET_PER_MICRO INT64_C(16384)     /* offset units in a microsecond */
#define HEUKELVOS_FREQUENCY_PER_PPM INT64_C(16777216) /* frequency units in 1 ppm; timex.freq has 65,536 */
/* 2106-02-07T06:28:15Z; 64 bits wide, so that adding 1 does not wrap */
#define HEUKELVOS_LAST_SECOND INT64_C(4294967295)
#define HEUKELVOS_LAST_MICRO INT64_C(999999)
#define HEUKELVOS_MAX_OFFSET_MICROS INT64_C(127999) /* us, either way: what a request may ask for */
#define HEUKELVOS_MAX_OFFSET INT64_C(2097135616)    /* offset units, either way: what may be left of it */
#define HEUKELVOS_MAX_FREQUENCY INT64_C(1677721600) /* frequency units, 100 ppm either way */
/* phase units a tick, of the 256 Hz recorder and of the 1,024 Hz recorder */
#define HEUKELVOS_LEAST_ADJUSTMENT_256 (-INT64_C(168819712))
#define HEUKELVOS_MOST_ADJUSTMENT_256 INT64_C(303037440)
#define HEUKELVOS_LEAST_ADJUSTMENT_1024 INT64_C(92012800)
#define HEUKELVOS_MOST_ADJUSTMENT_1024 INT64_C(209977088)
#define HEUKELVOS_PARTS_256 INT64_C(16)      /* parts of a phase unit, at 256 Hz: one is 2^-32 us */
#define HEUKELVOS_PARTS_1024 INT64_C(64)     /* .. and at 1,024 Hz: one is 2^-34 us */
#define HEUKELVOS_MAX_CONSTANT INT64_C(4)
#define HEUKELVOS_MIN_INTERVAL INT64_C(64)   /* rollovers from one accepted offset to the next */
#define HEUKELVOS_MAX_INTERVAL INT64_C(1024) /* rollovers since the last offset: later ones are not counted */
#define HEUKELVOS_MAX_ERROR INT64_C(16000000) /* us, both errors */
#define HEUKELVOS_MAX_CEILING INT64_C(65536) /* ticks in one catch-up */
#define HEUKELVOS_MAX_CLOCKS INT64_C(8)      /* clocks of a rig's table */
#define HEUKELVOS_LABEL_SIZE INT64_C(20)     /* bytes of a label */

/*
 * A clock, 52 bytes. The bytes between fields mean nothing: compare clocks field by field. A field outside its range makes a clock that
 * is not sound; heukelvos_in_range tells.
 */
struct heukelvos_clock {
	uint32_t seconds;   /* since 1970-01-01T00:00:00Z */
	uint32_t micros;    /* of the second, 0 to 999,999 us */
	int32_t phase;      /* the part of a microsecond that no reading shows; phase units, less than a microsecond either way */
	int32_t offset;     /* what is left of the last offset; offset units, at most HEUKELVOS_MAX_OFFSET either way */
	int32_t frequency;  /* frequency units, at most HEUKELVOS_MAX_FREQUENCY either way */
	int32_t adjustment; /* what each tick adds to the phase; phase units, between the ends of the clock's kind, which are allowed */
	uint8_t constant;   /* time constant of the loop, as a power of two: 0 to 4 */
	uint8_t updated;    /* 1 if an offset was accepted since the last setting, else 0 */
	uint32_t interval;  /* rollovers since that offset, with or without a leap, 0 to HEUKELVOS_MAX_INTERVAL; 0 if there is none */
	uint32_t maxerror;  /* 0 to 16,000,000 us */
	uint32_t esterror;  /* 0 to 16,000,000 us */
	uint8_t status;     /* enum heukelvos_status */
	uint8_t kind;       /* enum heukelvos_kind; no call changes it */
	int32_t remainder;  /* what the frequency in force leaves of a phase unit each tick; parts, fewer than a unit of the clock's kind has, either way */
	int32_t leftover;   /* the remainders added up, less the whole units that went into the phase; the same */
};

/* The answer of a call that may change the clock, and of heukelvos_fresh: 56 bytes. */
struct heukelvos_outcome {
	uint8_t refusal;
	struct heukelvos_clock clock; /* after the call; where it is refused, as it was handed in, and from heukelvos_fresh that of kind 0 */
};

/* The answer of a catch-up by value: 72 bytes. */
struct heukelvos_catch_up_answer {
	uint8_t refusal;              /* of the call itself: 0, 1 or 16 */
	uint64_t count;               /* how many ticks were accepted */
	uint8_t tick_refusal;         /* of the tick that ended it: 3, or 0 where none was refused */
	struct heukelvos_clock clock; /* after the accepted ticks; where the call is refused, as it was handed in */
};

/* The same without the clock, where that is lent: 24 bytes. */
struct heukelvos_counted {
	uint8_t refusal;
	uint64_t count;
	uint8_t tick_refusal;
};

/*
 * A request, 56 bytes. The mode adds up the bits of the fields that it selects; the others are not looked at. Nothing is cut: all 64 bits
 * of a field count.
 */
struct heukelvos_request {
	uint64_t mode;
	int64_t offset;    /* us */
	int64_t frequency; /* frequency units */
	uint64_t maxerror; /* us */
	uint64_t esterror; /* us */
	uint64_t status;   /* enum heukelvos_status */
	uint64_t constant; /* 0 to 4 */
};

/* What a clock shows: 20 bytes; and the answer of a reading: 24 bytes. */
struct heukelvos_reading {
	uint32_t seconds;  /* since 1970-01-01T00:00:00Z */
	uint32_t micros;   /* of the second, us */
	uint8_t status;    /* enum heukelvos_status */
	uint32_t maxerror; /* us */
	uint32_t esterror; /* us */
};

struct heukelvos_told {
	uint8_t refusal;
	struct heukelvos_reading reading;
};

/*
 * An event on a rig, 96 bytes: its code, and the numbers of every sort of event, of which those of its code are looked at. All 64 bits of a
 * number count. { .code = HEUKELVOS_EVENT_TICK } is a whole event.
 */
struct heukelvos_event {
	uint64_t code;                    /* enum heukelvos_event_code */
	uint64_t seconds;                 /* of a setting: since 1970-01-01T00:00:00Z */
	uint64_t micros;                  /* of a setting: of the second, us */
	struct heukelvos_request request; /* of a request */
	uint64_t ceiling;                 /* of a catch-up: ticks, at most HEUKELVOS_MAX_CEILING */
	bool stop;                        /* of a catch-up: whether it stops at a rollover */
};

/* What it answers, 40 bytes: the clock stays in the table. */
struct heukelvos_answer {
	uint8_t refusal;
	uint64_t count;                   /* of a catch-up how many ticks were accepted, else 0 */
	uint8_t tick_refusal;             /* of a catch-up that of the tick that ended it: 3, or 0 where none was refused; else 0 */
	struct heukelvos_reading reading; /* of an accepted reading what the clock shows, else zeros and status 4 */
};

/*
 * The clock lent, and changed in place: for a timer handler.
 *
 * heukelvos_tick_in_place: one tick of the device's timer, hardclock() of RFC 1589. Answers 0; or 1, 3, and the clock is as it was, not written to.
 *
 * heukelvos_catch_up_in_place: up to `ceiling` ticks in one call, the same as that many single ones, as far as the first that is refused; with
 * `stop`, none after one that rolls the second over (an inserted second counts as one). Answers refusal 1 for a clock out of range, then 16
 * for a ceiling above 65,536, with count 0 and tick_refusal 0, and the clock is as it was, not written to. Else refusal 0, how many ticks
 * were accepted, and tick_refusal 3 if one was refused for the last second, 0 if not: the clock then is the one that the accepted ticks led
 * to. Ceiling 0 is accepted and does nothing. The ceiling is reached before a refusal is looked for.
 */
uint8_t heukelvos_tick_in_place(struct heukelvos_clock *clock);
struct heukelvos_counted heukelvos_catch_up_in_place(struct heukelvos_clock *clock, uint64_t ceiling, bool stop);

/*
 * A rig: several recorders on one host, their clocks in one table, which is lent. In libheukelvos_rig.a.
 *
 * heukelvos_event_at: an event on the clock at `place`, from 0, of a table of `clocks` clocks. What it answers, and what becomes of that clock, is
 * what the call for the event does: heukelvos_tick, heukelvos_set, heukelvos_adjust, heukelvos_read or heukelvos_catch_up. Before any clock is
 * looked at, refusal 12 for an unknown code, then 19 for a table of more than eight clocks, then 18 for a place beyond it, as is each place of
 * an empty one; then the refusals of the call. A refused event writes to nothing; an accepted one, a reading too, writes the clock at its place.
 * No other clock is looked at or written to: it may be out of range.
 *
 * The whole table is lent, and so a handler of any of its clocks is held off. Where that is not wanted, one clock can be lent as a table of its
 * own, (&table[place], 1, 0, event), and a tick of it be made by heukelvos_tick_in_place(&table[place]), which is the same tick and faster.
 */
struct heukelvos_answer heukelvos_event_at(struct heukelvos_clock *table, size_t clocks, size_t place, struct heukelvos_event event);

/*
 * By value: the clock goes in and comes back in the answer, and the caller's own stays as it is.
 *
 * heukelvos_fresh      a clock of a kind to which nothing has happened yet, which counts as set to 0 s. Refusal 1 for a number that is no
 *                      kind: the clock is then that of kind 0
 * heukelvos_in_range   whether every field lies in its range
 * heukelvos_tick       what heukelvos_tick_in_place answers and leaves
 * heukelvos_catch_up   what heukelvos_catch_up_in_place answers and leaves
 * heukelvos_set        the clock set to seconds since 1970, 0 to 4,294,967,295, and microseconds, 0 to 999,999. Frequency, time
 *                      constant and kind stay; phase, offset left and leftover are 0, adjustment and remainder are those of the frequency,
 *                      no offset counts as accepted, both errors are 16,000,000 us, the status is BAD. Refusals 1, 2
 * heukelvos_adjust     the clock with every selected field's effect, ntp_adjtime() of RFC 1589. An offset (us) moves the frequency by
 *                      offset x interval / 4^constant, within its range, and the interval is then 0. A status is written only where the
 *                      clock is OK or BAD is written; an offset turns BAD to OK, unless the same request writes BAD. An offset fewer
 *                      than 64 rollovers after the last accepted one is refused with 17; the first on a fresh clock, or after a setting,
 *                      never is. Refusals 1, 4, 5, 6, 7, 8, 9, 17
 * heukelvos_read       what the clock shows. Refusal 1: the reading is then zeros and status 4
 */
struct heukelvos_outcome heukelvos_fresh(uint64_t kind);
bool heukelvos_in_range(struct heukelvos_clock clock);
struct heukelvos_outcome heukelvos_tick(struct heukelvos_clock clock);
struct heukelvos_catch_up_answer heukelvos_catch_up(struct heukelvos_clock clock, uint64_t ceiling, bool stop);
struct heukelvos_outcome heukelvos_set(struct heukelvos_clock clock, uint64_t seconds, uint64_t micros);
struct heukelvos_outcome heukelvos_adjust(struct heukelvos_clock clock, struct heukelvos_request request);
struct heukelvos_told heukelvos_read(struct heukelvos_clock clock);

/*
 * Writes the clock's UTC label, as 1970-01-01T00:00:00Z, into the first twenty of `length` bytes, with no 0 behind it, and leaves the
 * others; an inserted second is 23:59:60. Answers 0; or 1, 14, and all of them are as they were.
 */
uint8_t heukelvos_label(struct heukelvos_clock clock, uint8_t *out, size_t length);

#ifdef __cplusplus
}
#endif

#endif
