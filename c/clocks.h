/*
 * Clocks to try the library with, of both kinds: sound ones, ones with a fault, random ones; and how they are compared and told.
 */
#ifndef HEUKELVOS_CLOCKS_H
#define HEUKELVOS_CLOCKS_H

#include <inttypes.h>
#include <stdio.h>
#include "heukelvos.h"

typedef struct heukelvos_clock Clock;

/*
 * What sets the devices apart: rate (Hz), whole us of a tick, ends and fresh value of the adjustment (phase units), and the frequency units of
 * one phase unit, which are its parts.
 */
#define KINDS 2
static const struct device {
	int rate, tick;
	int32_t least, most, base, parts;
} devices[KINDS] = {
	[HEUKELVOS_KIND_256] = { 256, 3906, HEUKELVOS_LEAST_ADJUSTMENT_256, HEUKELVOS_MOST_ADJUSTMENT_256, 67108864, HEUKELVOS_PARTS_256 },
	[HEUKELVOS_KIND_1024] = { 1024, 976, HEUKELVOS_LEAST_ADJUSTMENT_1024, HEUKELVOS_MOST_ADJUSTMENT_1024, 150994944, HEUKELVOS_PARTS_1024 },
};

static inline bool same(Clock a, Clock b)
{
	return a.seconds == b.seconds && a.micros == b.micros && a.phase == b.phase && a.offset == b.offset
		&& a.frequency == b.frequency && a.adjustment == b.adjustment && a.constant == b.constant
		&& a.updated == b.updated && a.interval == b.interval && a.maxerror == b.maxerror
		&& a.esterror == b.esterror && a.status == b.status && a.kind == b.kind
		&& a.remainder == b.remainder && a.leftover == b.leftover;
}

static inline void show(const char *name, Clock c)
{
	printf("    %s: %" PRIu32 " s %" PRIu32 " us, phase %" PRId32 ", offset %" PRId32 ", frequency %" PRId32
	       ", adjustment %" PRId32 ", constant %d, updated %d, interval %" PRIu32 ", errors %" PRIu32 " %" PRIu32 ", status %d, kind %d"
	       ", remainder %" PRId32 ", leftover %" PRId32 "\n",
	       name, c.seconds, c.micros, c.phase, c.offset, c.frequency, c.adjustment, c.constant, c.updated, c.interval,
	       c.maxerror, c.esterror, c.status, c.kind, c.remainder, c.leftover);
}

/* A request whose fields are yet to be given: no two are alike, and each is refused where it is looked at. */
static inline struct heukelvos_request request_of(uint64_t mode)
{
	struct heukelvos_request r = {
		mode, INT64_MIN, INT64_MAX, UINT64_MAX, UINT64_MAX - 1, UINT64_MAX - 2, UINT64_MAX - 3
	};
	return r;
}

/* The errors (us) that are asked for with every offset: two, so that neither passes for the other. */
#define ASKED_MAXERROR 2500
#define ASKED_ESTERROR 700

/* A clock with a frequency (units), an offset (us), a time constant, both errors and then a status asked for. */
static inline Clock asked_for(Clock c, int64_t frequency, int64_t offset, uint64_t constant, uint64_t status)
{
	struct heukelvos_request r = request_of(63 - HEUKELVOS_ADJ_STATUS);
	r.offset = offset;
	r.frequency = frequency;
	r.maxerror = ASKED_MAXERROR;
	r.esterror = ASKED_ESTERROR;
	r.constant = constant;
	c = heukelvos_adjust(c, r).clock;
	r = request_of(HEUKELVOS_ADJ_STATUS);
	r.status = status;
	return heukelvos_adjust(c, r).clock;
}

static inline Clock fresh(int kind)
{
	return heukelvos_fresh(kind).clock;
}

/* The same of a fresh clock that was set to a time. */
static inline Clock adjusted(int kind, uint64_t seconds, uint64_t micros, int64_t frequency, int64_t offset, uint64_t constant, uint64_t status)
{
	return asked_for(heukelvos_set(fresh(kind), seconds, micros).clock, frequency, offset, constant, status);
}

static const uint64_t midnight = 1798761600; /* 2027-01-01T00:00:00Z */

/* Clocks of a kind to catch up: plain ones, one before each kind of leap, some at the end of time, extreme ones. */
#define CLOCKS 15
static inline Clock sound(int kind, int n)
{
	Clock c;
	switch (n) {
	case 0: return fresh(kind);
	case 1: return adjusted(kind, midnight, 0, 50 * HEUKELVOS_FREQUENCY_PER_PPM, 1000, 2, HEUKELVOS_TIME_OK);
	case 2: return adjusted(kind, midnight - 2, 500000, 0, 0, 0, HEUKELVOS_TIME_INS);
	case 3: return adjusted(kind, midnight - 1, 999999, -1, 7, 0, HEUKELVOS_TIME_INS);
	case 4: return adjusted(kind, midnight - 2, 996000, 1, -7, 4, HEUKELVOS_TIME_DEL);
	case 5: return adjusted(kind, midnight - 1, 0, 0, 0, 1, HEUKELVOS_TIME_OOP);
	case 6: return adjusted(kind, HEUKELVOS_LAST_SECOND - 1, 0, 0, 0, 0, HEUKELVOS_TIME_OK);
	case 7: return adjusted(kind, HEUKELVOS_LAST_SECOND, 0, 0, 0, 0, HEUKELVOS_TIME_OK);
	case 8: return adjusted(kind, HEUKELVOS_LAST_SECOND, 999999, 0, 0, 0, HEUKELVOS_TIME_INS);
	case 9: return adjusted(kind, 0, 0, HEUKELVOS_MAX_FREQUENCY - 1, HEUKELVOS_MAX_OFFSET_MICROS, 0, HEUKELVOS_TIME_OK);
	case 10: return adjusted(kind, 0, 0, 1 - HEUKELVOS_MAX_FREQUENCY, -HEUKELVOS_MAX_OFFSET_MICROS, 0, HEUKELVOS_TIME_OK);
	case 11:
		c = adjusted(kind, midnight - 3, 0, 0, 1000, 2, HEUKELVOS_TIME_INS);
		c.interval = HEUKELVOS_MAX_INTERVAL - 4;
		return c;
	case 12:
	case 13:
		c = adjusted(kind, HEUKELVOS_LAST_SECOND - 2, 0, n == 12 ? -33333 : 33333, 0, 0, HEUKELVOS_TIME_OK);
		c.remainder = n == 12 ? devices[kind].parts - 1 : 1 - devices[kind].parts;
		c.leftover = c.remainder;
		return c;
	default:
		c = fresh(kind);
		c.micros = HEUKELVOS_LAST_MICRO;
		c.phase = HEUKELVOS_PHASE_PER_MICRO - 1;
		c.adjustment = devices[kind].least;
		return c;
	}
}

/* Clocks with one field out of its range, each of which the library must see in its place; 11 counts from an offset that there is not. */
#define FAULTS 22
static inline Clock unsound(int kind, int n)
{
	Clock c = fresh(kind);
	switch (n) {
	case 0: c.micros = HEUKELVOS_LAST_MICRO + 1; break;
	case 1: c.phase = HEUKELVOS_PHASE_PER_MICRO; break;
	case 2: c.phase = -HEUKELVOS_PHASE_PER_MICRO; break;
	case 3: c.offset = HEUKELVOS_MAX_OFFSET + 1; break;
	case 4: c.offset = -HEUKELVOS_MAX_OFFSET - 1; break;
	case 5: c.frequency = HEUKELVOS_MAX_FREQUENCY + 1; break;
	case 6: c.frequency = -HEUKELVOS_MAX_FREQUENCY - 1; break;
	case 7: c.adjustment = devices[kind].least - 1; break;
	case 8: c.adjustment = devices[kind].most + 1; break;
	case 9: c.constant = HEUKELVOS_MAX_CONSTANT + 1; break;
	case 10: c.updated = 2; break;
	case 11: c.interval = 1; break;
	case 12: c.updated = 1, c.interval = HEUKELVOS_MAX_INTERVAL + 1; break;
	case 13: c.maxerror = HEUKELVOS_MAX_ERROR + 1; break;
	case 14: c.esterror = HEUKELVOS_MAX_ERROR + 1; break;
	case 15: c.status = HEUKELVOS_TIME_BAD + 1; break;
	case 16: c.kind = HEUKELVOS_KIND_1024 + 1; break;
	case 17: c.remainder = devices[kind].parts; break;
	case 18: c.remainder = -devices[kind].parts; break;
	case 19: c.leftover = devices[kind].parts; break;
	case 20: c.leftover = -devices[kind].parts; break;
	default: c.kind = UINT8_MAX; break;
	}
	return c;
}

/* Marsaglia's xorshift64. */
static uint64_t drawn = 88172645463325252u;
static inline uint64_t draw(uint64_t below)
{
	drawn ^= drawn << 13;
	drawn ^= drawn >> 7;
	drawn ^= drawn << 17;
	return drawn % below;
}

/* Any parts that a clock of a kind may have. */
static inline int32_t some_parts(int kind)
{
	int32_t most = devices[kind].parts - 1;
	return (int32_t)draw(2 * most + 1) - most;
}

/* A clock with any 32 bits in one field: mostly one that is not sound. */
static inline Clock spoilt(Clock c)
{
	uint32_t any = draw(UINT64_C(1) << 32);
	switch (draw(14)) {
	case 0: c.micros = any; break;
	case 1: c.phase = (int32_t)any; break;
	case 2: c.offset = (int32_t)any; break;
	case 3: c.frequency = (int32_t)any; break;
	case 4: c.adjustment = (int32_t)any; break;
	case 5: c.updated = any % 4; break;
	case 6: c.maxerror = any; break;
	case 7: c.interval = any; break;
	case 8: c.kind = any % 4; break;
	case 9: c.remainder = (int32_t)any; break;
	case 10: c.leftover = (int32_t)any; break;
	case 11: c.esterror = any; break;
	case 12: c.constant = any % 8; break;
	default: c.status = any % 8; break;
	}
	return c;
}

/* A clock of either kind at any time, with any frequency, offset, errors, parts and interval; one in eight spoilt. */
static inline Clock random_clock(void)
{
	Clock c = adjusted(draw(KINDS), draw(3) ? draw(UINT64_C(1) << 32) : HEUKELVOS_LAST_SECOND - draw(3), draw(1000000),
	                   (int64_t)draw(UINT64_C(2) * HEUKELVOS_MAX_FREQUENCY - 1) - HEUKELVOS_MAX_FREQUENCY + 1,
	                   (int64_t)draw(2 * HEUKELVOS_MAX_OFFSET_MICROS + 1) - HEUKELVOS_MAX_OFFSET_MICROS, draw(5), draw(5));
	if (draw(4))
		c.interval = draw(2) ? draw(HEUKELVOS_MAX_INTERVAL + 1) : HEUKELVOS_MAX_INTERVAL - draw(8);
	else
		c.updated = 0;
	if (draw(2)) {
		c.maxerror = draw(HEUKELVOS_MAX_ERROR + 1);
		c.esterror = draw(HEUKELVOS_MAX_ERROR + 1);
	}
	if (draw(2)) {
		c.remainder = some_parts(c.kind);
		c.leftover = some_parts(c.kind);
	}
	if (draw(2))
		c = heukelvos_catch_up(c, draw(2000), false).clock;
	return draw(8) ? c : spoilt(c);
}

static int failed;

static inline void check(const char *name, bool right)
{
	printf("%s: %s\n", name, right ? "as it should be" : "NOT as it should be");
	failed += !right;
}

#endif
