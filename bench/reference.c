/*
 * The operations of document 01 in plain C, for bench/run to hold the proved ones against: the same lines of input as crates/bench
 * ("tick 1000000"), the same checksums; with the argument `replay`, a history on standard input and the same lines as the program replay.
 * `request-summed` is the operation of crates/bench_summary: a request that moves a summary.
 * The state is changed in place, as a C programmer would have it; every call judges its state and arguments as document 01 asks.
 *
 * Many ticks in one call are written run_judged, run_looped, and by closed form twice: run_closed and run_position. A build has the one
 * that RUN names, run_closed if none is named, and runs the words `second` and `catch-up` and the ticks of a replay by it; all builds print the same.
 * The words `tick-1024`, `second-1024` and `catch-up-1024` are of the 1,024 Hz recorder, all others of the one of 256 Hz.
 *
 * strftime N, strptime N: the label operations by the C library, which judges less; their checksums stand alone.
 */
#define _GNU_SOURCE
#include <inttypes.h>
#include <stdbool.h>
#include <stdint.h>
#include <stdio.h>
#include <stdlib.h>
#include <string.h>
#include <time.h>

#define LAST_SECOND UINT32_MAX
#define MAX_ERROR 16000000
#define MAX_FREQUENCY 1677721600
#define MAX_LEFT 2097135616
#define MIN_INTERVAL 64
#define MAX_INTERVAL 1024
#define PHASE_US (1 << 28) /* phase units in a microsecond */

enum { OK, INS, DEL, OOP, BAD };

enum { KIND_256, KIND_1024 };

enum { OFFSET = 1, FREQUENCY = 2, MAXERROR = 4, ESTERROR = 8, STATUS = 16, CONSTANT = 32 };

struct clock {
	uint32_t seconds;
	uint32_t micros;
	int32_t phase;
	int32_t offset;
	int32_t frequency;
	int32_t adjustment;
	uint8_t constant;
	uint8_t updated;
	uint32_t interval;
	uint32_t maxerror;
	uint32_t esterror;
	uint8_t status;
	uint8_t kind;
	int32_t remainder; /* parts of a phase unit that each tick leaves */
	int32_t leftover;  /* the remainders added up, less whole units */
};

/*
 * What sets the recorders apart. A call for ticks asks once which kind it has, and goes on in code of that kind, where these are constants: of
 * the forms tried the fewest instructions. With conditional moves or tables in their place a tick takes a sixth more.
 */
struct device {
	int32_t tick;        /* whole us of a tick */
	uint32_t per_micro;  /* the longest ticks that go into a us (2^-32 ticks, rounded down) */
	int32_t scale;       /* phase units a tick for each offset unit of the share */
	int32_t divisor;     /* frequency units that make one phase unit a tick, and so the parts of a phase unit */
	int32_t base;        /* phase units a tick for what the ticks lack of a second */
	int32_t least, most; /* adjustment */
};

static const struct device recorder_256 = { 3906, 1099264, 64, 16, 67108864, -168819712, 303037440 };
static const struct device recorder_1024 = { 976, 4397057, 16, 64, 150994944, 92012800, 209977088 };

/* A function whose device is known where it is called. */
#define constant_device static inline __attribute__((always_inline))

struct request {
	uint64_t mode;
	int64_t offset;
	int64_t frequency;
	uint64_t maxerror;
	uint64_t esterror;
	uint64_t status;
	uint64_t constant;
};

static const struct clock fresh = {
	.adjustment = 67108864,
	.maxerror = MAX_ERROR,
	.esterror = MAX_ERROR,
	.status = BAD,
};

constant_device bool in_range_on(const struct device *d, const struct clock *c)
{
	return c->micros <= 999999
		&& -PHASE_US < c->phase && c->phase < PHASE_US
		&& -MAX_LEFT <= c->offset && c->offset <= MAX_LEFT
		&& -MAX_FREQUENCY <= c->frequency && c->frequency <= MAX_FREQUENCY
		&& d->least <= c->adjustment && c->adjustment <= d->most
		&& -d->divisor < c->remainder && c->remainder < d->divisor
		&& -d->divisor < c->leftover && c->leftover < d->divisor
		&& c->constant <= 4
		&& c->updated <= 1 && c->interval <= c->updated * MAX_INTERVAL
		&& c->maxerror <= MAX_ERROR
		&& c->esterror <= MAX_ERROR
		&& c->status <= BAD;
}

/* The least adjustment of each kind, and how far its greatest lies above it. */
static const uint32_t least_adjustment[] = { -168819712, 92012800 };
static const uint32_t adjustment_span[] = { 471857152, 117964288 };

/* The most parts that remainder and leftover may have. */
static const uint32_t most_parts[] = { 15, 63 };

/* For the calls that need no other constant of the device: by a table a label takes 7 instructions fewer than by code of each kind. */
static bool in_range(const struct clock *c)
{
	return c->kind <= KIND_1024
		&& c->micros <= 999999
		&& -PHASE_US < c->phase && c->phase < PHASE_US
		&& -MAX_LEFT <= c->offset && c->offset <= MAX_LEFT
		&& -MAX_FREQUENCY <= c->frequency && c->frequency <= MAX_FREQUENCY
		&& (uint32_t)c->adjustment - least_adjustment[c->kind] <= adjustment_span[c->kind]
		&& c->remainder + most_parts[c->kind] <= 2 * most_parts[c->kind]
		&& c->leftover + most_parts[c->kind] <= 2 * most_parts[c->kind]
		&& c->constant <= 4
		&& c->updated <= 1 && c->interval <= c->updated * MAX_INTERVAL
		&& c->maxerror <= MAX_ERROR
		&& c->esterror <= MAX_ERROR
		&& c->status <= BAD;
}

static inline __attribute__((always_inline)) void leap(struct clock *c)
{
	switch (c->status) {
	case INS:
		if (c->seconds % 86400 == 0) {
			c->seconds--;
			c->status = OOP;
		}
		break;
	case DEL:
		if (c->seconds % 86400 == 86399) {
			c->seconds++;
			c->status = OK;
		}
		break;
	case OOP:
		c->status = OK;
		break;
	}
}

/* Of a number that is a kind. */
static inline const struct device *device_of(uint32_t kind)
{
	return kind == KIND_256 ? &recorder_256 : &recorder_1024;
}

/* Apart from the tick, so that the ticks within a second stay short. */
static __attribute__((noinline)) void rollover(struct clock *c)
{
	const struct device *d = device_of(c->kind);
	c->seconds++;
	c->maxerror = c->maxerror <= MAX_ERROR - 100 ? c->maxerror + 100 : MAX_ERROR;
	int32_t share = c->offset / (1 << (10 + c->constant));
	c->offset -= share;
	c->adjustment = d->scale * share + c->frequency / d->divisor + d->base;
	c->remainder = c->frequency % d->divisor;
	c->interval += c->interval < c->updated * MAX_INTERVAL;
	leap(c);
}

constant_device int tick_on(const struct device *d, struct clock *c)
{
	if (!in_range_on(d, c))
		return 1;
	int32_t parts = c->leftover + c->remainder;
	/* -1, 0 or 1; by comparisons a tick takes 2 to 5 instructions more */
	int32_t unit = parts / d->divisor;
	int32_t sum = c->phase + c->adjustment + unit;
	int32_t carry = sum / PHASE_US;
	uint32_t micros = c->micros + d->tick + carry;
	if (micros < 1000000) {
		c->micros = micros;
		c->phase = sum - carry * PHASE_US;
		c->leftover = parts - unit * d->divisor;
		return 0;
	}
	if (c->seconds == LAST_SECOND)
		return 3;
	c->micros = micros - 1000000;
	c->phase = sum - carry * PHASE_US;
	c->leftover = parts - unit * d->divisor;
	rollover(c);
	return 0;
}

static int tick(struct clock *c)
{
	switch (c->kind) {
	case KIND_256: return tick_on(&recorder_256, c);
	case KIND_1024: return tick_on(&recorder_1024, c);
	default: return 1;
	}
}

/* Many ticks in one call: how many were accepted, and the refusal of the one that ended them, or 0. */

#define MAX_CEILING 65536
#define likely(x) __builtin_expect(!!(x), 1)
#define unlikely(x) __builtin_expect(!!(x), 0)

struct run {
	uint64_t count;
	int refusal;
};

/* Single ticks: each judges the state. */
constant_device struct run run_judged(const struct device *d, struct clock *c, uint64_t n, bool stop)
{
	struct run r = { 0, 0 };
	while (r.count < n) {
		uint32_t before = c->micros;
		r.refusal = tick_on(d, c);
		if (r.refusal)
			break;
		r.count++;
		if (stop && c->micros < before)
			break;
	}
	return r;
}

/* Tick by tick, on a state that was judged once: the three fields that every tick moves in registers. */
constant_device struct run run_looped(const struct device *d, struct clock *c, uint64_t n, bool stop)
{
	uint64_t left = n;
	uint32_t micros = c->micros;
	int32_t phase = c->phase, leftover = c->leftover;
	int refusal = 0;
	for (; left; left--) {
		int32_t parts = leftover + c->remainder;
		int32_t unit = parts >= d->divisor ? 1 : parts <= -d->divisor ? -1 : 0;
		int32_t sum = phase + c->adjustment + unit;
		int32_t carry = sum / PHASE_US;
		uint32_t next = micros + d->tick + carry;
		if (unlikely(next >= 1000000)) {
			if (c->seconds == LAST_SECOND) {
				refusal = 3;
				break;
			}
			rollover(c);
			next -= 1000000;
			if (stop) {
				n -= left - 1;
				left = 1;
			}
		}
		micros = next;
		phase = sum - carry * PHASE_US;
		leftover = parts - unit * d->divisor;
	}
	c->micros = micros;
	c->phase = phase;
	c->leftover = leftover;
	return (struct run){ n - left, refusal };
}

/* A rollover but for its count and the maximum error, with what does not change in a run worked out before it. */
constant_device void roll(const struct device *d, struct clock *c, int32_t divisor, int32_t base, int32_t remainder)
{
	c->seconds++;
	int32_t share = c->offset / divisor;
	c->offset -= share;
	c->adjustment = d->scale * share + base;
	c->remainder = remainder;
	if (likely(c->status == OK || c->status == BAD))
		return;
	leap(c);
}

/* The maximum error after so many rollovers: limited once. */
static inline uint32_t grown(const struct clock *c, uint64_t rollovers)
{
	const uint64_t e = c->maxerror + 100 * rollovers;
	return e < MAX_ERROR ? e : MAX_ERROR;
}

/* The interval after a run, of the one before it and the run's rollovers together: limited once. */
static inline uint32_t counted(const struct clock *c, uint64_t rolled)
{
	const uint32_t most = c->updated * MAX_INTERVAL;
	return rolled < most ? rolled : most;
}

/*
 * On a state that was judged once, the ticks of a second in one step. Between rollovers the adjustment is constant, so j ticks carry
 * (phase + j adjustments) / 2^28 whole microseconds, with the units that the leftover reaches in the phase. By the longest ticks that go into
 * what is left of the second none but the last of the j can reach its end.
 * The state in a copy, the count downwards, the usual case first, in line: of the forms tried the fewest instructions for a second of ticks.
 */
constant_device struct run run_closed(const struct device *d, struct clock *state, uint64_t n, bool stop)
{
	struct clock c = *state;
	const int32_t divisor = 1 << (10 + c.constant), base = c.frequency / d->divisor + d->base;
	const int32_t remainder = c.frequency % d->divisor;
	uint64_t left = n, rolled = c.interval;
	int refusal = 0;
	while (left) {
		uint64_t j = ((uint64_t)(999999 - c.micros) * d->per_micro >> 32) + 1;
		if (j > left)
			j = left;
		int32_t parts = c.leftover + (int32_t)j * c.remainder;
		int64_t sum = c.phase + parts / d->divisor + (int64_t)j * c.adjustment;
		int32_t carry = sum / PHASE_US;
		uint32_t micros = c.micros + d->tick * (uint32_t)j + carry;
		if (likely(micros >= 1000000)) {
			if (unlikely(c.seconds == LAST_SECOND)) {
				j--;
				parts -= c.remainder;
				sum = c.phase + parts / d->divisor + (int64_t)j * c.adjustment;
				carry = sum / PHASE_US;
				c.micros += d->tick * (uint32_t)j + carry;
				c.phase = sum - carry * (int64_t)PHASE_US;
				c.leftover = parts % d->divisor;
				left -= j;
				refusal = 3;
				break;
			}
			micros -= 1000000;
			c.maxerror = c.maxerror <= MAX_ERROR - 100 ? c.maxerror + 100 : MAX_ERROR;
			roll(d, &c, divisor, base, remainder);
			rolled++;
			if (stop) {
				n -= left - j;
				left = j;
			}
		}
		left -= j;
		c.micros = micros;
		c.phase = sum - carry * (int64_t)PHASE_US;
		c.leftover = parts % d->divisor;
	}
	c.interval = counted(&c, rolled);
	*state = c;
	return (struct run){ n - left, refusal };
}

static __attribute__((noinline, unused)) struct run run_rest(const struct device *d, struct clock *state, uint64_t n, bool stop)
{
	return run_closed(d, state, n, stop);
}

/*
 * The place in the second as one number of parts of a phase unit, and a 64-bit division for the ticks that are left of it: one step a second,
 * for many seconds the fewest instructions of the forms tried. Where phase, adjustment or parts are negative, as run_closed.
 */
constant_device struct run run_position(const struct device *d, struct clock *state, uint64_t n, bool stop)
{
	struct clock c = *state;
	const int32_t divisor = 1 << (10 + c.constant), base = c.frequency / d->divisor + d->base;
	const int32_t remainder = c.frequency % d->divisor;
	const int64_t unit = d->divisor, micro = unit << 28, second = 1000000 * micro;
	uint64_t left = n, rolled = c.interval;
	int refusal = 0;
	bool stopped = false;
	if (likely(c.phase >= 0 && c.leftover >= 0)) {
		int64_t at = c.micros * micro + c.phase * unit + c.leftover;
		while (left && c.adjustment >= 0 && c.remainder >= 0) {
			int64_t step = d->tick * micro + c.adjustment * unit + c.remainder;
			uint64_t j = (uint64_t)(second - 1 - at) / (uint64_t)step + 1;
			if (j > left)
				j = left;
			at += (int64_t)j * step;
			if (likely(at >= second)) {
				if (unlikely(c.seconds == LAST_SECOND)) {
					at -= step;
					left -= j - 1;
					refusal = 3;
					break;
				}
				at -= second;
				roll(d, &c, divisor, base, remainder);
				rolled++;
				if (stop) {
					left -= j;
					stopped = true;
					break;
				}
			}
			left -= j;
		}
		c.micros = (uint64_t)at / micro;
		c.phase = (uint64_t)at / unit & (PHASE_US - 1);
		c.leftover = at & (unit - 1);
		c.maxerror = grown(&c, rolled - c.interval);
		c.interval = counted(&c, rolled);
	}
	*state = c;
	if (unlikely(left && !refusal && !stopped)) {
		struct run r = run_rest(d, state, left, stop);
		return (struct run){ n - left + r.count, r.refusal };
	}
	return (struct run){ n - left, refusal };
}

#ifndef RUN
#define RUN run_closed
#endif

/*
 * The runs of each kind, for each of their callers. For a replay they are called, and for a catch-up gcc works them out and then puts them into
 * its code: the other way about a second of ticks takes two fifths more instructions, and a replay of 65,536 ticks a quarter more. With tables
 * in place of code of each kind a catch-up of 65,536 ticks takes 2.5 in a hundred more at 256 Hz, and 6 in a hundred fewer at 1,024 Hz.
 */
static __attribute__((noinline)) struct run run_256(struct clock *c, uint64_t n)
{
	return RUN(&recorder_256, c, n, false);
}

static __attribute__((noinline)) struct run run_1024(struct clock *c, uint64_t n)
{
	return RUN(&recorder_1024, c, n, false);
}

static struct run catch_up_256(struct clock *c, uint64_t n, bool stop)
{
	return RUN(&recorder_256, c, n, stop);
}

static struct run catch_up_1024(struct clock *c, uint64_t n, bool stop)
{
	return RUN(&recorder_1024, c, n, stop);
}

static int run_ticks(struct clock *c, uint64_t n)
{
	switch (c->kind) {
	case KIND_256:
		if (!in_range_on(&recorder_256, c))
			return 1;
		return run_256(c, n).refusal;
	case KIND_1024:
		if (!in_range_on(&recorder_1024, c))
			return 1;
		return run_1024(c, n).refusal;
	default:
		return 1;
	}
}

static int catch_up(struct clock *c, uint64_t ceiling, bool stop, struct run *r)
{
	*r = (struct run){ 0, 0 };
	switch (c->kind) {
	case KIND_256:
		if (!in_range_on(&recorder_256, c))
			return 1;
		if (ceiling > MAX_CEILING)
			return 16;
		*r = catch_up_256(c, ceiling, stop);
		return 0;
	case KIND_1024:
		if (!in_range_on(&recorder_1024, c))
			return 1;
		if (ceiling > MAX_CEILING)
			return 16;
		*r = catch_up_1024(c, ceiling, stop);
		return 0;
	default:
		return 1;
	}
}

static int set(struct clock *c, uint64_t seconds, uint64_t micros)
{
	if (!in_range(c))
		return 1;
	if (seconds > LAST_SECOND || micros > 999999)
		return 2;
	c->seconds = seconds;
	c->micros = micros;
	c->phase = 0;
	c->offset = 0;
	const struct device *d = device_of(c->kind);
	c->adjustment = c->frequency / d->divisor + d->base;
	c->remainder = c->frequency % d->divisor;
	c->leftover = 0;
	c->updated = 0;
	c->interval = 0;
	c->maxerror = MAX_ERROR;
	c->esterror = MAX_ERROR;
	c->status = BAD;
	return 0;
}

static int refusal_of(const struct clock *c, const struct request *r)
{
	if (!in_range(c))
		return 1;
	if (r->mode > 63)
		return 4;
	if ((r->mode & OFFSET) && (r->offset < -127999 || r->offset > 127999))
		return 5;
	if ((r->mode & FREQUENCY) && (r->frequency <= -MAX_FREQUENCY || r->frequency >= MAX_FREQUENCY))
		return 6;
	if ((r->mode & MAXERROR) && r->maxerror > MAX_ERROR)
		return 7;
	if ((r->mode & ESTERROR) && r->esterror > MAX_ERROR)
		return 7;
	if ((r->mode & STATUS) && r->status > BAD)
		return 8;
	if ((r->mode & CONSTANT) && r->constant > 4)
		return 9;
	if ((r->mode & OFFSET) && c->updated && c->interval < MIN_INTERVAL)
		return 17;
	return 0;
}

static int adjust(struct clock *c, const struct request *r)
{
	int refusal = refusal_of(c, r);
	if (refusal)
		return refusal;
	if (r->mode & FREQUENCY)
		c->frequency = r->frequency;
	if (r->mode & MAXERROR)
		c->maxerror = r->maxerror;
	if (r->mode & ESTERROR)
		c->esterror = r->esterror;
	if ((r->mode & STATUS) && (c->status == OK || r->status == BAD))
		c->status = r->status;
	if (r->mode & CONSTANT)
		c->constant = r->constant;
	if (r->mode & OFFSET) {
		c->offset = (int32_t)r->offset * (1 << 14);
		int32_t f = c->frequency + (int32_t)r->offset * (int32_t)c->interval / (1 << (2 * c->constant));
		c->frequency = f < -MAX_FREQUENCY ? -MAX_FREQUENCY : f > MAX_FREQUENCY ? MAX_FREQUENCY : f;
		c->updated = 1;
		c->interval = 0;
		if (c->status == BAD && !((r->mode & STATUS) && r->status == BAD))
			c->status = OK;
	}
	return 0;
}

/* The summary: for each quarter-hour of the UTC day how many offsets were accepted, up to 65,535, and the largest size among them (us). */

#define QUARTERS 96

struct summary {
	uint16_t counts[QUARTERS];
	uint32_t largest[QUARTERS];
};

static void count_offset(struct summary *m, uint32_t seconds, int32_t offset)
{
	uint32_t quarter = seconds % 86400 / 900;
	uint32_t size = offset < 0 ? -offset : offset;
	if (m->counts[quarter] < UINT16_MAX)
		m->counts[quarter]++;
	if (m->largest[quarter] < size)
		m->largest[quarter] = size;
}

/* A request leaves the seconds as they were. */
static int adjust_summed(struct clock *c, const struct request *r, struct summary *m)
{
	int refusal = adjust(c, r);
	if ((r->mode & OFFSET) && !refusal)
		count_offset(m, c->seconds, r->offset);
	return refusal;
}

/* Numbers. A writer gives the place after the number, or 0 where the buffer is too short. */

static size_t number_size(uint32_t n)
{
	return n < 1 << 7 ? 1 : n < 1 << 14 ? 2 : n < 1 << 21 ? 3 : n < 1 << 28 ? 4 : 5;
}

static size_t number_write(uint8_t *buf, size_t len, size_t at, uint32_t n)
{
	size_t size = number_size(n);
	if (len < size || len - size < at)
		return 0;
	for (; n >= 128; n >>= 7)
		buf[at++] = n | 128;
	buf[at++] = n;
	return at;
}

/* The reader is a loop. -DSTRAIGHT takes the one below, without a loop and at every place of its own: it takes fewer instructions, and more code. */
#ifndef STRAIGHT
static int number_read(const uint8_t *bytes, size_t len, size_t *at, uint64_t *value)
{
	uint64_t n = 0;
	size_t p = *at;
	for (int shift = 0; shift < 35; shift += 7) {
		if (p >= len)
			return 10;
		uint64_t b = bytes[p++];
		n |= (b & 127) << shift;
		if (b < 128) {
			if (b == 0 && shift > 0)
				return 11;
			*value = n;
			*at = p;
			return 0;
		}
	}
	return 11;
}
#else
/* The byte k places after the first, on top of n. */
#define LATER(k)                                 \
	if (p + (k) >= len)                      \
		return 10;                       \
	b = bytes[p + (k)];                      \
	if (b < 128) {                           \
		if (b == 0)                      \
			return 11;               \
		*value = n + (b << 7 * (k));     \
		*at = p + (k) + 1;               \
		return 0;                        \
	}                                        \
	n += (b - 128) << 7 * (k);

static inline __attribute__((always_inline)) int number_read(const uint8_t *bytes, size_t len, size_t *at, uint64_t *value)
{
	size_t p = *at;
	if (p >= len)
		return 10;
	uint64_t b = bytes[p];
	if (b < 128) {
		*value = b;
		*at = p + 1;
		return 0;
	}
	uint64_t n = b - 128;
	LATER(1)
	LATER(2)
	LATER(3)
	LATER(4)
	return 11;
}
#endif

static int64_t unmap(uint64_t n)
{
	return (int64_t)(n >> 1) ^ -(int64_t)(n & 1);
}

static uint32_t map(int32_t v)
{
	return (uint32_t)v << 1 ^ (uint32_t)(v >> 31);
}

/*
 * Records. Version 4 is written; the earlier ones lack remainder and leftover, those before version 3 the kind too, which are 0, and in
 * version 1 the second of the last offset stands at the place of the interval.
 */

#define VERSION 4
#define KIND_SINCE 3
#define RECORD_NUMBERS 16

static int record_write(const struct clock *c, uint8_t *buf, size_t len, size_t *length)
{
	*length = 0;
	if (!in_range(c))
		return 1;
	const uint32_t numbers[RECORD_NUMBERS] = {
		VERSION,
		c->kind,
		c->seconds,
		c->micros,
		map(c->phase),
		map(c->offset),
		map(c->frequency),
		map(c->adjustment),
		c->constant,
		c->updated,
		c->interval,
		c->maxerror,
		c->esterror,
		c->status,
		map(c->remainder),
		map(c->leftover),
	};
	uint8_t text[48], *p = text;
	for (int k = 0; k < RECORD_NUMBERS; k++) {
		uint32_t n = numbers[k];
		for (; n >= 128; n >>= 7)
			*p++ = n | 128;
		*p++ = n;
	}
	size_t size = p - text;
	if (len < size)
		return 14;
	memcpy(buf, text, size);
	*length = size;
	return 0;
}

/* At every place of their own: called, a record takes a fifth more instructions, and with the straight reader three quarters more. */
static inline __attribute__((always_inline)) int plain_field(const uint8_t *bytes, size_t len, size_t *at, uint32_t least, uint32_t most, uint32_t *value)
{
	uint64_t n;
	int refusal = number_read(bytes, len, at, &n);
	if (refusal)
		return refusal;
	if (n < least || n > most)
		return 12;
	*value = n;
	return 0;
}

static inline __attribute__((always_inline)) int signed_field(const uint8_t *bytes, size_t len, size_t *at, int32_t least, int32_t most, int32_t *value)
{
	uint64_t n;
	int refusal = number_read(bytes, len, at, &n);
	if (refusal)
		return refusal;
	int64_t v = unmap(n);
	if (v < least || v > most)
		return 12;
	*value = v;
	return 0;
}

static int fields_read(const uint8_t *bytes, size_t len, struct clock *c)
{
	size_t at = 0;
	uint32_t version, kind = KIND_256, constant, updated, status, remainder = 0, leftover = 0;
	int refusal;
	if ((refusal = plain_field(bytes, len, &at, 1, VERSION, &version))
		|| (version >= KIND_SINCE && (refusal = plain_field(bytes, len, &at, 0, KIND_1024, &kind)))
		|| (refusal = plain_field(bytes, len, &at, 0, LAST_SECOND, &c->seconds))
		|| (refusal = plain_field(bytes, len, &at, 0, 999999, &c->micros))
		|| (refusal = signed_field(bytes, len, &at, 1 - PHASE_US, PHASE_US - 1, &c->phase))
		|| (refusal = signed_field(bytes, len, &at, -MAX_LEFT, MAX_LEFT, &c->offset))
		|| (refusal = signed_field(bytes, len, &at, -MAX_FREQUENCY, MAX_FREQUENCY, &c->frequency))
		|| (refusal = signed_field(bytes, len, &at, device_of(kind)->least, device_of(kind)->most, &c->adjustment))
		|| (refusal = plain_field(bytes, len, &at, 0, 4, &constant))
		|| (refusal = plain_field(bytes, len, &at, 0, 1, &updated))
		|| (refusal = plain_field(bytes, len, &at, 0, !updated ? 0 : version == 1 ? LAST_SECOND : MAX_INTERVAL, &c->interval))
		|| (refusal = plain_field(bytes, len, &at, 0, MAX_ERROR, &c->maxerror))
		|| (refusal = plain_field(bytes, len, &at, 0, MAX_ERROR, &c->esterror))
		|| (refusal = plain_field(bytes, len, &at, 0, BAD, &status))
		|| (version == VERSION && (refusal = plain_field(bytes, len, &at, 0, 2 * most_parts[kind], &remainder)))
		|| (version == VERSION && (refusal = plain_field(bytes, len, &at, 0, 2 * most_parts[kind], &leftover))))
		return refusal;
	if (at < len)
		return 13;
	c->constant = constant;
	c->updated = updated;
	c->status = status;
	c->kind = kind;
	c->remainder = unmap(remainder);
	c->leftover = unmap(leftover);
	if (version == 1) {
		c->updated = 0;
		c->interval = 0;
	}
	return 0;
}

static int record_read(const uint8_t *bytes, size_t len, struct clock *c)
{
	int refusal = fields_read(bytes, len, c);
	if (refusal)
		*c = fresh;
	return refusal;
}

/* Labels. */

static const char pairs[] =
	"00010203040506070809101112131415161718192021222324252627282930313233343536373839404142434445464748495051525354555657585960"
	"616263646566676869707172737475767778798081828384858687888990919293949596979899";

static int label_write(const struct clock *c, uint8_t *out, size_t len)
{
	if (!in_range(c))
		return 1;
	if (len < 20)
		return 14;
	uint32_t day = c->seconds / 86400, of_day = c->seconds % 86400;
	/* days from 1 March 1968; 2100 is no leap year */
	uint32_t j = day + 671 + (day >= 47541);
	uint32_t year = (4 * j + 3) / 1461;
	uint32_t of_year = j - year * 1461 / 4;
	uint32_t month = (5 * of_year + 2) / 153;
	uint32_t date = of_year - (153 * month + 2) / 5 + 1;
	month += 3;
	year += 1968;
	if (month > 12) {
		month -= 12;
		year++;
	}
	uint32_t hour = of_day / 3600, minute = of_day / 60 % 60, second = of_day % 60;
	if (c->status == OOP && of_day == 86399)
		second = 60;
	memcpy(out, pairs + 2 * (year / 100), 2);
	memcpy(out + 2, pairs + 2 * (year % 100), 2);
	out[4] = '-';
	memcpy(out + 5, pairs + 2 * month, 2);
	out[7] = '-';
	memcpy(out + 8, pairs + 2 * date, 2);
	out[10] = 'T';
	memcpy(out + 11, pairs + 2 * hour, 2);
	out[13] = ':';
	memcpy(out + 14, pairs + 2 * minute, 2);
	out[16] = ':';
	memcpy(out + 17, pairs + 2 * second, 2);
	out[19] = 'Z';
	return 0;
}

/* The number of two digits, or something above 99. */
static uint32_t pair(const uint8_t *s)
{
	uint32_t tens = s[0] - '0', units = s[1] - '0';
	return tens > 9 || units > 9 ? 10000 : 10 * tens + units;
}

static int label_read(const uint8_t *s, size_t len, uint32_t *seconds, bool *sixty)
{
	static const uint8_t month_days[] = { 31, 28, 31, 30, 31, 30, 31, 31, 30, 31, 30, 31 };

	*seconds = 0;
	*sixty = false;
	if (len != 20 || s[4] != '-' || s[7] != '-' || s[10] != 'T' || s[13] != ':' || s[16] != ':' || s[19] != 'Z')
		return 15;
	uint32_t year = 100 * pair(s) + pair(s + 2), month = pair(s + 5), date = pair(s + 8);
	uint32_t hour = pair(s + 11), minute = pair(s + 14), second = pair(s + 17);
	if (year < 1970 || year > 2106 || month < 1 || month > 12)
		return 15;
	uint32_t leap = year % 4 == 0 && year != 2100;
	if (date < 1 || date > month_days[month - 1] + (month == 2 ? leap : 0))
		return 15;
	if (hour > 23 || minute > 59 || second > 60)
		return 15;
	bool is_sixty = second == 60;
	if (is_sixty) {
		if (hour != 23 || minute != 59)
			return 15;
		second = 59;
	}
	uint32_t y = year - 1968 - (month < 3), m = month < 3 ? month + 9 : month - 3;
	uint32_t j = y * 1461 / 4 + (153 * m + 2) / 5 + date - 1;
	uint32_t day = j - 671 - (j >= 48213);
	uint64_t at = (uint64_t)day * 86400 + hour * 3600 + minute * 60 + second;
	if (at > LAST_SECOND)
		return 15;
	*seconds = at;
	*sixty = is_sixty;
	return 0;
}

/* Replay. */

static uint8_t *put_decimal(uint8_t *out, uint32_t n)
{
	if (n >= 10)
		out = put_decimal(out, n / 10);
	*out++ = '0' + n % 10;
	return out;
}

static uint8_t *put_refused(uint8_t *out, int refusal)
{
	memcpy(out, "refused ", 8);
	out = put_decimal(out + 8, refusal);
	*out++ = '\n';
	return out;
}

static uint8_t *put_log(uint8_t *out, int refusal, uint32_t place)
{
	memcpy(out, "log ", 4);
	out = put_decimal(out + 4, refusal);
	memcpy(out, " at ", 4);
	out = put_decimal(out + 4, place);
	*out++ = '\n';
	return out;
}

static uint8_t *put_print(uint8_t *out, const struct clock *c)
{
	label_write(c, out, 20);
	out[20] = ' ';
	memcpy(out + 21, pairs + 2 * (c->micros / 10000), 2);
	memcpy(out + 23, pairs + 2 * (c->micros / 100 % 100), 2);
	memcpy(out + 25, pairs + 2 * (c->micros % 100), 2);
	out[27] = ' ';
	out[28] = '0' + c->status;
	out[29] = '\n';
	return out + 30;
}

/* `QQ N M` for each quarter-hour with an offset. */
static uint8_t *put_summary(uint8_t *out, const struct summary *m)
{
	for (int quarter = 0; quarter < QUARTERS; quarter++) {
		if (m->counts[quarter] == 0)
			continue;
		memcpy(out, pairs + 2 * quarter, 2);
		out[2] = ' ';
		out = put_decimal(out + 3, m->counts[quarter]);
		*out++ = ' ';
		out = put_decimal(out, m->largest[quarter]);
		*out++ = '\n';
	}
	return out;
}

static int read_request(const uint8_t *bytes, size_t len, size_t *at, struct request *r)
{
	uint64_t field[6] = { 0 };
	int refusal = number_read(bytes, len, at, &r->mode);
	if (refusal)
		return refusal;
	for (int k = 0; k < 6; k++)
		if (r->mode >> k & 1) {
			refusal = number_read(bytes, len, at, &field[k]);
			if (refusal)
				return refusal;
		}
	r->offset = unmap(field[0]);
	r->frequency = unmap(field[1]);
	r->maxerror = field[2];
	r->esterror = field[3];
	r->status = field[4];
	r->constant = field[5];
	return 0;
}

/*
 * Runs a history into `out`, which has room for all of its lines, and gives how many bytes it wrote. Code 4 is an event at place 0 alone, of one
 * byte: judged before the others, it costs them nothing.
 */
static size_t replay(const uint8_t *bytes, size_t len, uint8_t *out)
{
	struct clock c = fresh;
	struct summary m = { 0 };
	struct request r;
	uint8_t *end = out;
	bool asked = len > 0 && bytes[0] == 4;
	size_t at = asked;
	if (len > 65536)
		return put_log(out, 13, 65536) - out;
	while (at < len) {
		size_t place = at;
		uint64_t code, a, b;
		int undecodable, refusal = 0;
		undecodable = number_read(bytes, len, &at, &code);
		if (!undecodable)
			switch (code) {
			case 0:
				undecodable = number_read(bytes, len, &at, &a);
				if (!undecodable)
					refusal = run_ticks(&c, a);
				break;
			case 1:
				undecodable = number_read(bytes, len, &at, &a);
				if (!undecodable)
					undecodable = number_read(bytes, len, &at, &b);
				if (!undecodable)
					refusal = set(&c, a, b);
				break;
			case 2:
				undecodable = read_request(bytes, len, &at, &r);
				if (!undecodable)
					refusal = adjust_summed(&c, &r, &m);
				break;
			case 3:
				end = put_print(end, &c);
				break;
			default:
				undecodable = 12;
			}
		if (undecodable)
			return put_log(end, undecodable, place) - out;
		if (refusal)
			end = put_refused(end, refusal);
	}
	if (asked)
		end = put_summary(end, &m);
	return end - out;
}

/* The benchmark. */

static uint64_t mix(uint64_t sum, uint32_t x)
{
	return (sum & ((UINT64_C(1) << 58) - 1)) * 31 + x;
}

static uint64_t mix_clock(uint64_t sum, const struct clock *c)
{
	sum = mix(mix(sum, c->seconds), c->micros);
	sum = mix(mix(sum, map(c->phase)), map(c->offset));
	sum = mix(mix(sum, map(c->frequency)), map(c->adjustment));
	sum = mix(mix(sum, c->constant), c->updated);
	sum = mix(mix(sum, c->interval), c->maxerror);
	sum = mix(mix(sum, c->esterror), c->status);
	sum = mix(sum, c->kind);
	return mix(mix(sum, map(c->remainder)), map(c->leftover));
}

/* What the operations work on, taken from memory as the program runs: so the compiler cannot know what is in range. */
static void fill_numbers(uint64_t *values)
{
	for (uint64_t i = 0; i < 64; i++)
		values[i] = i;
	__asm__("" : "+m"(*(uint64_t (*)[64])values));
}

static uint32_t small(const uint64_t *values, uint64_t i)
{
	return values[i % 64] % 64;
}

/*
 * A clock of a kind with work to do: an offset of 1,000 us to pay off, a frequency that leaves a remainder at both kinds, and time constant 2.
 * Its adjustment lies in the ranges of both kinds.
 */
static struct clock begun(const uint64_t *values, int kind)
{
	struct clock c = {
		.seconds = small(values, 43) * 2000,
		.micros = small(values, 0),
		.phase = small(values, 0),
		.offset = small(values, 10) * 1638400,
		.frequency = small(values, 12) * 10289,
		.adjustment = small(values, 40) * 3355443,
		.constant = small(values, 2),
		.updated = small(values, 1),
		.interval = small(values, 0),
		.maxerror = small(values, 16) * 1000000,
		.esterror = small(values, 16) * 1000000,
		.status = small(values, 0),
		.kind = small(values, kind),
		.remainder = small(values, 5) - small(values, 9),
		.leftover = small(values, 3) - small(values, 7),
	};
	return c;
}

static uint64_t ticks(int kind, uint64_t count)
{
	uint64_t values[64], sum = 0;
	fill_numbers(values);
	struct clock c = begun(values, kind);
	for (uint64_t i = 0; i < count; i++) {
		int refusal = tick(&c);
		sum = mix(mix(sum, refusal), c.micros);
	}
	return mix_clock(sum, &c);
}

static uint64_t catch_ups(int kind, uint64_t ceiling, uint64_t count)
{
	uint64_t values[64], sum = 0;
	fill_numbers(values);
	struct clock c = begun(values, kind);
	for (uint64_t i = 0; i < count; i++) {
		struct run r;
		int refusal = catch_up(&c, ceiling, false, &r);
		sum = mix(mix(sum, refusal), r.count);
		sum = mix(mix(sum, r.refusal), c.micros);
	}
	return mix_clock(sum, &c);
}

static uint64_t ticks_256(uint64_t count)
{
	return ticks(KIND_256, count);
}

static uint64_t ticks_1024(uint64_t count)
{
	return ticks(KIND_1024, count);
}

static uint64_t seconds_256(uint64_t count)
{
	return catch_ups(KIND_256, 256, count);
}

static uint64_t seconds_1024(uint64_t count)
{
	return catch_ups(KIND_1024, 1024, count);
}

static uint64_t greatest_256(uint64_t count)
{
	return catch_ups(KIND_256, MAX_CEILING, count);
}

static uint64_t greatest_1024(uint64_t count)
{
	return catch_ups(KIND_1024, MAX_CEILING, count);
}

/* 64 rollovers later: so no offset comes too soon, and the interval that a request takes moves. It stays below 1,024. */
static void go_on(struct clock *c)
{
	c->seconds += 64;
	c->interval = c->interval % 960 + 64;
}

/* The i-th request: every choice of fields in turn. */
static void request_of(const uint64_t *values, uint64_t i, struct request *r)
{
	uint64_t k = i / 64;
	*r = (struct request){
		.mode = values[i % 64],
		.offset = unmap(values[k % 64]),
		.frequency = unmap(values[k / 2 % 64]),
		.maxerror = values[k / 3 % 64],
		.esterror = values[k / 4 % 64],
		.status = values[k % 4],
		.constant = values[k % 5],
	};
}

static uint64_t request_some(struct clock *c, uint64_t count)
{
	uint64_t values[64], sum = 0;
	fill_numbers(values);
	*c = begun(values, KIND_256);
	go_on(c);
	for (uint64_t i = 0; i < count; i++) {
		struct request r;
		request_of(values, i, &r);
		int refusal = adjust(c, &r);
		sum = mix(mix(sum, refusal), c->status);
		go_on(c);
	}
	return sum;
}

static uint64_t requests(uint64_t count)
{
	struct clock c;
	uint64_t sum = request_some(&c, count);
	return mix_clock(sum, &c);
}

static uint64_t mix_summary(uint64_t sum, const struct summary *m)
{
	for (int quarter = 0; quarter < QUARTERS; quarter++)
		sum = mix(mix(sum, m->counts[quarter]), m->largest[quarter]);
	return sum;
}

/* The same requests, with a summary that each of them moves. */
static uint64_t summed_requests(uint64_t count)
{
	uint64_t values[64], sum = 0;
	struct summary m = { 0 };
	fill_numbers(values);
	struct clock c = begun(values, KIND_256);
	go_on(&c);
	for (uint64_t i = 0; i < count; i++) {
		struct request r;
		request_of(values, i, &r);
		int refusal = adjust_summed(&c, &r, &m);
		sum = mix(mix(sum, refusal), c.status);
		go_on(&c);
	}
	return mix_summary(mix_clock(sum, &c), &m);
}

#define STEP 2654435

static uint64_t label_writes(uint64_t count)
{
	struct clock c = fresh;
	uint8_t text[20] = { 0 };
	uint64_t sum = 0;
	for (uint64_t i = 0; i < count; i++) {
		c.seconds += STEP;
		__asm__("" : "+m"(c)); /* hides from the compiler that all but the seconds stay */
		int refusal = label_write(&c, text, sizeof text);
		size_t p = i % 16;
		sum = mix(mix(mix(sum, refusal), text[p]), text[p + 4]);
	}
	return sum;
}

static void fill_labels(uint8_t *texts)
{
	struct clock c = fresh;
	for (int i = 0; i < 64; i++) {
		c.seconds += STEP;
		label_write(&c, texts + 20 * i, 20);
	}
}

static uint64_t label_reads(uint64_t count)
{
	uint8_t texts[1280];
	uint64_t sum = 0;
	fill_labels(texts);
	for (uint64_t i = 0; i < count; i++) {
		uint32_t s;
		bool sixty;
		int refusal = label_read(texts + 20 * (i % 64), 20, &s, &sixty);
		sum = mix(mix(sum, refusal), s);
		if (sixty)
			sum = mix(sum, 1);
	}
	return sum;
}

static void fill_clocks(struct clock *clocks)
{
	uint64_t values[64];
	fill_numbers(values);
	for (int k = 0; k < 64; k++) {
		request_some(&clocks[k], 97 * k);
		clocks[k].micros = small(values, k) * 15000;
		clocks[k].phase = small(values, k) * 4000000;
	}
}

static uint64_t record_writes(uint64_t count)
{
	struct clock clocks[64];
	uint8_t buf[46] = { 0 };
	uint64_t sum = 0;
	fill_clocks(clocks);
	for (uint64_t i = 0; i < count; i++) {
		size_t length, p = i % 23;
		int refusal = record_write(&clocks[i % 64], buf, sizeof buf, &length);
		sum = mix(mix(sum, refusal), length);
		sum = mix(mix(sum, buf[p]), buf[p + 23]);
	}
	return sum;
}

static uint64_t record_reads(uint64_t count)
{
	struct clock clocks[64], c;
	uint8_t bytes[64][64];
	size_t lengths[64];
	uint64_t sum = 0;
	fill_clocks(clocks);
	for (int k = 0; k < 64; k++)
		record_write(&clocks[k], bytes[k], sizeof bytes[k], &lengths[k]);
	for (uint64_t i = 0; i < count; i++) {
		size_t k = i % 64;
		int refusal = record_read(bytes[k], lengths[k], &c);
		sum = mix_clock(mix(sum, refusal), &c);
	}
	return sum;
}

/* All that was answered in one step of the checksum: a step for each takes longer than a short number does. */
static uint64_t round_trips(uint32_t least, uint64_t count)
{
	uint8_t buf[8];
	uint64_t sum = 0;
	for (uint64_t i = 0; i < count; i++) {
		size_t next = number_write(buf, sizeof buf, 0, least + i % 128), at = 0;
		uint64_t value;
		int refusal = number_read(buf, sizeof buf, &at, &value);
		sum = mix(sum, (refusal ? (uint32_t)refusal : (uint32_t)value) + (uint8_t)at + (uint8_t)next);
	}
	return sum;
}

static uint64_t reads(uint32_t least, uint64_t count)
{
	uint8_t buf[640] = { 0 };
	uint64_t sum = 0;
	size_t end = 0, at = 0;
	for (int i = 0; i < 128; i++)
		end = number_write(buf, sizeof buf, end, least + i);
	for (uint64_t i = 0; i < count; i++) {
		uint64_t value;
		int refusal = number_read(buf, sizeof buf, &at, &value);
		sum = mix(sum, refusal ? (uint32_t)refusal : (uint32_t)value);
		if (refusal || at >= end)
			at = 0;
	}
	return sum;
}

/*
 * The replay program: a history from standard input, its lines to standard output. A byte of a history prints 30 bytes at most; a quarter-hour's
 * line has at most 16, and an offset, of three bytes or more, for which no other line is printed.
 */
static int replay_input(void)
{
	static uint8_t history[65537];
	static uint8_t out[30 * 65536];
	size_t len = fread(history, 1, sizeof history, stdin);
	if (ferror(stdin))
		return 1;
	size_t n = replay(history, len, out);
	return fwrite(out, 1, n, stdout) != n;
}

static uint64_t strftimes(uint64_t count)
{
	char text[21];
	uint32_t s = 0;
	uint64_t sum = 0;
	for (uint64_t i = 0; i < count; i++) {
		struct tm tm;
		s += STEP;
		time_t t = s;
		strftime(text, sizeof text, "%Y-%m-%dT%H:%M:%SZ", gmtime_r(&t, &tm));
		size_t p = i % 16;
		sum = mix(mix(mix(sum, 0), text[p]), text[p + 4]);
	}
	return sum;
}

static uint64_t strptimes(uint64_t count)
{
	static char texts[64][21];
	uint8_t plain[1280];
	uint64_t sum = 0;
	fill_labels(plain);
	for (int i = 0; i < 64; i++)
		memcpy(texts[i], plain + 20 * i, 20);
	for (uint64_t i = 0; i < count; i++) {
		struct tm tm = { 0 };
		const char *end = strptime(texts[i % 64], "%Y-%m-%dT%H:%M:%SZ", &tm);
		sum = mix(mix(sum, end && !*end ? 0 : 15), timegm(&tm));
	}
	return sum;
}

int main(int argc, char **argv)
{
	if (argc == 2 && !strcmp(argv[1], "replay"))
		return replay_input();
	static const struct {
		const char *word;
		uint64_t (*run)(uint64_t count);
	} operations[] = {
		{ "tick", ticks_256 },
		{ "tick-1024", ticks_1024 },
		{ "second", seconds_256 },
		{ "second-1024", seconds_1024 },
		{ "catch-up", greatest_256 },
		{ "catch-up-1024", greatest_1024 },
		{ "request", requests },
		{ "request-summed", summed_requests },
		{ "label-write", label_writes },
		{ "label-read", label_reads },
		{ "record-write", record_writes },
		{ "record-read", record_reads },
		{ "strftime", strftimes },
		{ "strptime", strptimes },
	};
	char word[16];
	uint64_t count;
	while (scanf("%15s %" SCNu64, word, &count) == 2) {
		bool known = false;
		for (size_t k = 0; k < sizeof operations / sizeof *operations; k++)
			if (!strcmp(word, operations[k].word)) {
				printf("%" PRIu64 "\n", operations[k].run(count));
				known = true;
			}
		if (!strncmp(word, "number-", 7)) {
			bool alone = !strncmp(word + 7, "read-", 5);
			int bytes = word[alone ? 12 : 7] - '0';
			printf("%" PRIu64 "\n", (alone ? reads : round_trips)(bytes == 1 ? 0 : 1 << 7 * (bytes - 1), count));
			known = true;
		}
		if (!known)
			printf("no such operation\n");
	}
	return 0;
}
