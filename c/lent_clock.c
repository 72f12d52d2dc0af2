/*
 * A program that links the library as a timer handler would, and holds it to c/heukelvos.h. test/c_program.sh builds and runs it.
 *
 *   lent_clock           checks the layout, and the calls on a lent clock against the calls by value and against single ticks, field by
 *                        field; a line for each check, and exit status 1 where one fails
 *   lent_clock history   what a day of in-place calls did, in the text form of bin/history: a catch-up is the ticks that it tried
 *   lent_clock lines     what the replay must print for that history, from the same calls
 */
#include <inttypes.h>
#include <stdio.h>
#include <string.h>
#include "clocks.h"

#define SIZE(type, n) _Static_assert(sizeof(struct type) == (n), "size of " #type)
#define PLACE(type, field, n) _Static_assert(offsetof(struct type, field) == (n), #type "." #field)

SIZE(heukelvos_clock, 52);
PLACE(heukelvos_clock, seconds, 0);
PLACE(heukelvos_clock, micros, 4);
PLACE(heukelvos_clock, phase, 8);
PLACE(heukelvos_clock, offset, 12);
PLACE(heukelvos_clock, frequency, 16);
PLACE(heukelvos_clock, adjustment, 20);
PLACE(heukelvos_clock, constant, 24);
PLACE(heukelvos_clock, updated, 25);
PLACE(heukelvos_clock, interval, 28);
PLACE(heukelvos_clock, maxerror, 32);
PLACE(heukelvos_clock, esterror, 36);
PLACE(heukelvos_clock, status, 40);
PLACE(heukelvos_clock, kind, 41);
PLACE(heukelvos_clock, remainder, 44);
PLACE(heukelvos_clock, leftover, 48);
SIZE(heukelvos_outcome, 56);
PLACE(heukelvos_outcome, refusal, 0);
PLACE(heukelvos_outcome, clock, 4);
SIZE(heukelvos_catch_up_answer, 72);
PLACE(heukelvos_catch_up_answer, refusal, 0);
PLACE(heukelvos_catch_up_answer, count, 8);
PLACE(heukelvos_catch_up_answer, tick_refusal, 16);
PLACE(heukelvos_catch_up_answer, clock, 20);
SIZE(heukelvos_counted, 24);
PLACE(heukelvos_counted, refusal, 0);
PLACE(heukelvos_counted, count, 8);
PLACE(heukelvos_counted, tick_refusal, 16);
SIZE(heukelvos_request, 56);
PLACE(heukelvos_request, mode, 0);
PLACE(heukelvos_request, offset, 8);
PLACE(heukelvos_request, frequency, 16);
PLACE(heukelvos_request, maxerror, 24);
PLACE(heukelvos_request, esterror, 32);
PLACE(heukelvos_request, status, 40);
PLACE(heukelvos_request, constant, 48);
SIZE(heukelvos_reading, 20);
PLACE(heukelvos_reading, seconds, 0);
PLACE(heukelvos_reading, micros, 4);
PLACE(heukelvos_reading, status, 8);
PLACE(heukelvos_reading, maxerror, 12);
PLACE(heukelvos_reading, esterror, 16);
SIZE(heukelvos_told, 24);
PLACE(heukelvos_told, refusal, 0);
PLACE(heukelvos_told, reading, 4);

/* What heukelvos.h says of a catch-up, by single ticks in place. The microseconds fall at a rollover, also where a second is inserted. */
static struct heukelvos_catch_up_answer one_by_one(Clock c, uint64_t ceiling, bool stop)
{
	struct heukelvos_catch_up_answer r = { 0 };
	r.clock = c;
	if (!heukelvos_in_range(c))
		r.refusal = HEUKELVOS_REFUSED_STATE;
	else if (ceiling > HEUKELVOS_MAX_CEILING)
		r.refusal = HEUKELVOS_REFUSED_CEILING;
	else
		while (r.count < ceiling) {
			uint32_t before = r.clock.micros;
			r.tick_refusal = heukelvos_tick_in_place(&r.clock);
			if (r.tick_refusal)
				break;
			r.count++;
			if (stop && r.clock.micros < before)
				break;
		}
	return r;
}

/* The lent catch-up, the one by value and single ticks give the same. */
static bool catches_up(Clock c, uint64_t ceiling, bool stop)
{
	struct heukelvos_catch_up_answer single = one_by_one(c, ceiling, stop);
	struct heukelvos_catch_up_answer value = heukelvos_catch_up(c, ceiling, stop);
	Clock lent = c;
	struct heukelvos_counted counted = heukelvos_catch_up_in_place(&lent, ceiling, stop);
	if (same(lent, value.clock) && counted.refusal == value.refusal && counted.count == value.count
	    && counted.tick_refusal == value.tick_refusal && same(lent, single.clock) && counted.refusal == single.refusal
	    && counted.count == single.count && counted.tick_refusal == single.tick_refusal)
		return true;
	printf("    ceiling %" PRIu64 ", stop %d: lent %d %" PRIu64 " %d, by value %d %" PRIu64 " %d, single ticks %d %" PRIu64 " %d\n",
	       ceiling, stop, counted.refusal, counted.count, counted.tick_refusal, value.refusal, value.count, value.tick_refusal,
	       single.refusal, single.count, single.tick_refusal);
	show("of", c);
	show("lent", lent);
	show("by value", value.clock);
	show("single ticks", single.clock);
	return false;
}

/* Clocks of a kind with fields at the ends of their ranges. */
static bool ends(int kind)
{
	Clock most = fresh(kind), least = most;
	most.seconds = HEUKELVOS_LAST_SECOND;
	most.micros = HEUKELVOS_LAST_MICRO;
	most.phase = HEUKELVOS_PHASE_PER_MICRO - 1;
	most.offset = HEUKELVOS_MAX_OFFSET;
	most.frequency = HEUKELVOS_MAX_FREQUENCY;
	most.adjustment = devices[kind].most;
	most.constant = HEUKELVOS_MAX_CONSTANT;
	most.updated = 1;
	most.interval = HEUKELVOS_MAX_INTERVAL;
	most.remainder = most.leftover = devices[kind].parts - 1;
	least.phase = 1 - HEUKELVOS_PHASE_PER_MICRO;
	least.offset = -HEUKELVOS_MAX_OFFSET;
	least.frequency = -HEUKELVOS_MAX_FREQUENCY;
	least.adjustment = devices[kind].least;
	least.maxerror = least.esterror = least.status = 0;
	least.remainder = least.leftover = 1 - devices[kind].parts;
	return heukelvos_in_range(most) && heukelvos_in_range(least);
}

static bool layout(int kind)
{
	Clock c = adjusted(kind, 5, 6, 7, 8, 3, HEUKELVOS_TIME_DEL), wanted = fresh(kind);
	wanted.seconds = 5;
	wanted.micros = 6;
	wanted.frequency = 7;
	wanted.offset = 8 * HEUKELVOS_OFFSET_PER_MICRO;
	wanted.constant = 3;
	wanted.updated = 1;
	wanted.maxerror = ASKED_MAXERROR;
	wanted.esterror = ASKED_ESTERROR;
	wanted.status = HEUKELVOS_TIME_DEL;
	for (int n = 0; n < FAULTS; n++)
		if (heukelvos_in_range(unsound(kind, n)))
			return printf("    fault %d is not seen\n", n), false;
	if (!same(c, wanted) || !heukelvos_in_range(c))
		return show("adjusted", c), show("wanted", wanted), false;
	return ends(kind);
}

/* The fresh clock of a number: of a kind its own, of every other number refusal 1, and the clock of kind 0. */
static bool fresh_clock(uint64_t number)
{
	bool known = number < KINDS;
	struct heukelvos_outcome o = heukelvos_fresh(number);
	Clock c = { 0 };
	c.kind = known ? number : HEUKELVOS_KIND_256;
	c.adjustment = devices[c.kind].base;
	c.maxerror = c.esterror = HEUKELVOS_MAX_ERROR;
	c.status = HEUKELVOS_TIME_BAD;
	if (o.refusal == (known ? HEUKELVOS_ACCEPTED : HEUKELVOS_REFUSED_STATE) && same(o.clock, c) && heukelvos_in_range(c))
		return true;
	printf("    number %" PRIu64 ": refusal %d\n", number, o.refusal);
	show("fresh", o.clock);
	return false;
}

/* The numbers of a byte; and those whose low 8, 16 or 32 bits are a kind's, which a cut would make it. */
static bool fresh_clocks(void)
{
	for (uint64_t number = 0; number <= UINT8_MAX; number++)
		if (!fresh_clock(number))
			return false;
	for (int width = 8; width < 64; width++)
		for (int kind = 0; kind < KINDS; kind++)
			if (!fresh_clock((UINT64_C(1) << width) + kind))
				return false;
	return fresh_clock(UINT64_MAX);
}

/* A million ticks from ten seconds before a leap on: a rollover at which it is made counts a second less, or one more. */
static bool through(int kind, int leap)
{
	Clock lent = adjusted(kind, midnight - 10, 0, 33 * HEUKELVOS_FREQUENCY_PER_PPM, -20000, 0, leap);
	uint64_t rollovers = 0;
	for (int n = 0; n < 1000000; n++) {
		uint32_t before = lent.micros;
		struct heukelvos_outcome value = heukelvos_tick(lent);
		uint8_t refusal = heukelvos_tick_in_place(&lent);
		rollovers += lent.micros < before;
		if (refusal != 0 || value.refusal != 0 || !same(lent, value.clock)) {
			printf("    tick %d: refusal %d, by value %d\n", n, refusal, value.refusal);
			show("lent", lent);
			show("by value", value.clock);
			return false;
		}
	}
	return lent.status == HEUKELVOS_TIME_OK && lent.kind == kind
		&& lent.seconds == midnight - 10 + rollovers + (leap == HEUKELVOS_TIME_DEL) - (leap == HEUKELVOS_TIME_INS);
}

static bool million_ticks(int kind)
{
	return through(kind, HEUKELVOS_TIME_INS) && through(kind, HEUKELVOS_TIME_DEL);
}

/* The seconds of a clock: none with fewer ticks than one below the rate, none with more than one above it, and at least one of `ticks`. */
static bool lasts(Clock c, uint64_t ticks)
{
	uint64_t rate = devices[c.kind].rate;
	bool met = false;
	for (int n = 0; n < 100; n++) {
		uint64_t count = heukelvos_catch_up_in_place(&c, HEUKELVOS_MAX_CEILING, true).count;
		if (count < rate - 1 || rate + 1 < count) {
			printf("    a second of %" PRIu64 " ticks\n", count);
			return show("after it", c), false;
		}
		met = met || count == ticks;
	}
	return met || (printf("    no second of %" PRIu64 " ticks\n", ticks), false);
}

/* A fresh clock's second has as many ticks as the rate says, to the phase unit. That of the fastest clock has one fewer now and then, that of
   the slowest one more. */
static bool seconds_of_ticks(int kind)
{
	int rate = devices[kind].rate;
	Clock c = fresh(kind);
	for (int n = 1; n < rate; n++)
		if (heukelvos_tick_in_place(&c) != 0 || c.seconds != 0)
			return printf("    tick %d\n", n), show("after it", c), false;
	if (heukelvos_tick_in_place(&c) != 0 || c.seconds != 1 || c.micros != 0 || c.phase != 0)
		return show("after a second", c), false;
	return lasts(c, rate) && lasts(sound(kind, 9), rate - 1) && lasts(sound(kind, 10), rate + 1);
}

/*
 * Ticks in place as far as some rollovers, where the microseconds fall: each counts one up to the limit, if there was an offset, and no other
 * tick moves the count.
 */
static bool counts(Clock *c, int rollovers)
{
	while (rollovers) {
		Clock before = *c;
		uint8_t refusal = heukelvos_tick_in_place(c);
		bool rolled = c->micros < before.micros;
		bool counted = rolled && before.updated && before.interval < HEUKELVOS_MAX_INTERVAL;
		if (refusal || c->updated != before.updated || c->interval != before.interval + counted) {
			printf("    a tick that %s, refusal %d\n", rolled ? "rolls over" : "does not roll over", refusal);
			show("before", before);
			show("after", *c);
			return false;
		}
		rollovers -= rolled;
	}
	return true;
}

/* The frequency units that an offset of 1,000 us adds to a clock of frequency 0, which it leaves with an interval of 0; else -1. */
static int32_t gained(Clock c)
{
	struct heukelvos_request r = request_of(HEUKELVOS_ADJ_OFFSET);
	r.offset = 1000;
	struct heukelvos_outcome o = heukelvos_adjust(c, r);
	return o.refusal == 0 && c.frequency == 0 && o.clock.updated == 1 && o.clock.interval == 0 ? o.clock.frequency : -1;
}

/* The interval: rollovers, and not seconds, since the last offset. */
static bool intervals(int kind)
{
	Clock plain = adjusted(kind, midnight, 0, 0, 1000, 0, HEUKELVOS_TIME_OK), none = heukelvos_set(plain, midnight, 0).clock;
	Clock inserted = adjusted(kind, midnight - 3, 0, 0, 1000, 0, HEUKELVOS_TIME_INS);
	Clock deleted = adjusted(kind, midnight - 3, 0, 0, 1000, 0, HEUKELVOS_TIME_DEL);
	struct heukelvos_request other = request_of(HEUKELVOS_ADJ_MAXERROR);
	other.maxerror = 1;
	if (!counts(&inserted, 70) || inserted.seconds != midnight + 66 || inserted.interval != 70 || gained(inserted) != 70000)
		return show("an inserted second", inserted), false;
	if (!counts(&deleted, 70) || deleted.seconds != midnight + 68 || deleted.interval != 70 || gained(deleted) != 70000)
		return show("a deleted second", deleted), false;
	if (!counts(&plain, HEUKELVOS_MAX_INTERVAL) || plain.interval != HEUKELVOS_MAX_INTERVAL || !counts(&plain, 3)
	    || plain.interval != HEUKELVOS_MAX_INTERVAL || gained(plain) != 1000 * HEUKELVOS_MAX_INTERVAL)
		return show("the longest interval", plain), false;
	if (none.updated != 0 || !counts(&none, 3) || none.interval != 0 || gained(none) != 0)
		return show("no earlier offset", none), false;
	Clock reset = heukelvos_set(plain, midnight, 0).clock;
	return heukelvos_adjust(plain, other).clock.interval == HEUKELVOS_MAX_INTERVAL && reset.updated == 0 && reset.interval == 0;
}

/* Whether a request gets this refusal, and leaves the clock. */
static bool refused(Clock c, struct heukelvos_request r, uint8_t refusal)
{
	struct heukelvos_outcome o = heukelvos_adjust(c, r);
	return (o.refusal == refusal && same(o.clock, c)) || (show("refused otherwise", o.clock), false);
}

/*
 * An offset is refused at once after another and up to 63 rollovers later, whatever comes with it; a bad field, as the time constant, is judged
 * before. A request without one is accepted, and a rollover later the offset is.
 */
static bool too_soon(int kind)
{
	Clock c = adjusted(kind, midnight, 0, 0, 1000, 0, HEUKELVOS_TIME_OK);
	struct heukelvos_request r = { HEUKELVOS_ADJ_OFFSET, 1000, 7, 8, 9, 0, HEUKELVOS_MAX_CONSTANT + 1 };
	if (!refused(c, r, HEUKELVOS_REFUSED_SOON) || !counts(&c, HEUKELVOS_MIN_INTERVAL - 1) || !refused(c, r, HEUKELVOS_REFUSED_SOON))
		return show("the clock", c), false;
	r.mode = 31;
	if (!refused(c, r, HEUKELVOS_REFUSED_SOON))
		return false;
	r.mode = 63;
	if (!refused(c, r, HEUKELVOS_REFUSED_CONSTANT))
		return false;
	r.mode = HEUKELVOS_ADJ_MAXERROR;
	struct heukelvos_outcome other = heukelvos_adjust(c, r);
	return other.refusal == 0 && other.clock.maxerror == 8 && other.clock.esterror == ASKED_ESTERROR
		&& other.clock.interval == HEUKELVOS_MIN_INTERVAL - 1
		&& counts(&other.clock, 1) && gained(other.clock) == 1000 * HEUKELVOS_MIN_INTERVAL;
}

/* A refused tick leaves the lent clock as it was. */
static bool refused_ticks(int kind)
{
	for (int n = 0; n < FAULTS; n++) {
		Clock lent = unsound(kind, n);
		if (heukelvos_tick_in_place(&lent) != HEUKELVOS_REFUSED_STATE || !same(lent, unsound(kind, n)))
			return printf("    fault %d\n", n), false;
	}
	Clock last = sound(kind, 8), lent = last;
	return heukelvos_tick_in_place(&lent) == HEUKELVOS_REFUSED_LAST && same(lent, last) && heukelvos_tick(lent).refusal == HEUKELVOS_REFUSED_LAST;
}

static bool edges(int kind)
{
	static const uint64_t ceilings[] = { 0, 1, 2, 3, 254, 255, 256, 257, 258, 511, 512, 513, 1000, 1022, 1023, 1024, 1025, 1026, 2047,
		2048, 2049, 65535, 65536, 65537, 131072, UINT64_C(0x100000000), UINT64_C(0x100000001), UINT64_C(0x8000000000000000),
		UINT64_MAX };
	for (size_t k = 0; k < sizeof ceilings / sizeof *ceilings; k++)
		for (int n = 0; n < 2 * (CLOCKS + FAULTS); n++) {
			Clock c = n / 2 < CLOCKS ? sound(kind, n / 2) : unsound(kind, n / 2 - CLOCKS);
			if (!catches_up(c, ceilings[k], n % 2))
				return false;
		}
	return true;
}

static bool random_runs(void)
{
	bool right = true;
	for (int n = 0; n < 200000 && right; n++) {
		Clock c = random_clock();
		right = catches_up(c, draw(20) ? draw(2100) : draw(70000), draw(2));
	}
	return right;
}

/*
 * The refusal of a request that asks a fresh clock for one thing, or UINT8_MAX where the clock is then another
 * than it should be: no other field is looked at or moved.
 */
static uint8_t asked(int kind, uint64_t mode, int64_t number)
{
	struct heukelvos_request r = request_of(mode);
	Clock wanted = fresh(kind);
	switch (mode) {
	case HEUKELVOS_ADJ_OFFSET:
		r.offset = number;
		wanted.offset = number * HEUKELVOS_OFFSET_PER_MICRO;
		wanted.updated = 1;
		wanted.status = HEUKELVOS_TIME_OK;
		break;
	case HEUKELVOS_ADJ_FREQUENCY: wanted.frequency = r.frequency = number; break;
	case HEUKELVOS_ADJ_MAXERROR: wanted.maxerror = r.maxerror = number; break;
	case HEUKELVOS_ADJ_ESTERROR: wanted.esterror = r.esterror = number; break;
	case HEUKELVOS_ADJ_STATUS: wanted.status = r.status = number; break;
	case HEUKELVOS_ADJ_TIMECONST: wanted.constant = r.constant = number; break;
	}
	struct heukelvos_outcome o = heukelvos_adjust(fresh(kind), r);
	if (same(o.clock, o.refusal ? fresh(kind) : wanted))
		return o.refusal;
	show("asked", o.clock);
	return UINT8_MAX;
}

/* All six fields in one request, each with a number of its own, have the effects of each alone. */
static bool asked_for_all(int kind)
{
	struct heukelvos_request r = { 63, -3, 11, 5, 7, HEUKELVOS_TIME_BAD, 2 };
	Clock wanted = fresh(kind);
	wanted.offset = -3 * HEUKELVOS_OFFSET_PER_MICRO;
	wanted.frequency = 11;
	wanted.maxerror = 5;
	wanted.esterror = 7;
	wanted.constant = 2;
	wanted.updated = 1;
	struct heukelvos_outcome o = heukelvos_adjust(fresh(kind), r);
	r.mode = 64;
	return (o.refusal == 0 && same(o.clock, wanted) && refused(fresh(kind), r, HEUKELVOS_REFUSED_MODE))
		|| (show("asked for all", o.clock), false);
}

/* Each bit of the mode selects its field, whose refusal has its number at the first value that is not allowed. */
static bool requests(int kind)
{
	return asked_for_all(kind) && asked(kind, 0, 0) == 0
		&& asked(kind, HEUKELVOS_ADJ_OFFSET, HEUKELVOS_MAX_OFFSET_MICROS) == 0
		&& asked(kind, HEUKELVOS_ADJ_OFFSET, -HEUKELVOS_MAX_OFFSET_MICROS - 1) == HEUKELVOS_REFUSED_OFFSET
		&& asked(kind, HEUKELVOS_ADJ_FREQUENCY, 1 - HEUKELVOS_MAX_FREQUENCY) == 0
		&& asked(kind, HEUKELVOS_ADJ_FREQUENCY, HEUKELVOS_MAX_FREQUENCY) == HEUKELVOS_REFUSED_FREQUENCY
		&& asked(kind, HEUKELVOS_ADJ_MAXERROR, HEUKELVOS_MAX_ERROR) == 0
		&& asked(kind, HEUKELVOS_ADJ_MAXERROR, HEUKELVOS_MAX_ERROR + 1) == HEUKELVOS_REFUSED_ERROR
		&& asked(kind, HEUKELVOS_ADJ_ESTERROR, HEUKELVOS_MAX_ERROR) == 0
		&& asked(kind, HEUKELVOS_ADJ_ESTERROR, HEUKELVOS_MAX_ERROR + 1) == HEUKELVOS_REFUSED_ERROR
		&& asked(kind, HEUKELVOS_ADJ_STATUS, HEUKELVOS_TIME_BAD) == 0
		&& asked(kind, HEUKELVOS_ADJ_STATUS, HEUKELVOS_TIME_BAD + 1) == HEUKELVOS_REFUSED_STATUS
		&& asked(kind, HEUKELVOS_ADJ_TIMECONST, HEUKELVOS_MAX_CONSTANT) == 0
		&& asked(kind, HEUKELVOS_ADJ_TIMECONST, HEUKELVOS_MAX_CONSTANT + 1) == HEUKELVOS_REFUSED_CONSTANT;
}

/*
 * What a caller works out with the header's numbers, in ints of his own, keeps its value until it is judged:
 * 250 ppm are refused, and are not -6.
 */
static bool worked_out(int kind)
{
	for (int ppm = -1000; ppm <= 1000; ppm++)
		if (asked(kind, HEUKELVOS_ADJ_FREQUENCY, ppm * HEUKELVOS_FREQUENCY_PER_PPM)
		    != (ppm > -100 && ppm < 100 ? HEUKELVOS_ACCEPTED : HEUKELVOS_REFUSED_FREQUENCY))
			return printf("    %d ppm\n", ppm), false;
	return heukelvos_set(fresh(kind), HEUKELVOS_LAST_SECOND + 1, 0).refusal == HEUKELVOS_REFUSED_TIME;
}

/* A label takes the first twenty bytes of a buffer of any length, though its low 8 or 16 bits may be 0. */
static bool long_labels(int kind)
{
	static uint8_t text[65536];
	static const size_t lengths[] = { 20, 21, 255, 256, 256 + 19, 65535, 65536 };
	for (size_t k = 0; k < sizeof lengths / sizeof *lengths; k++) {
		memset(text, 'x', sizeof text);
		if (heukelvos_label(sound(kind, 2), text, lengths[k]) != 0
		    || memcmp(text, "2026-12-31T23:59:58Zxx", 22) != 0)
			return printf("    %zu bytes\n", lengths[k]), false;
	}
	return true;
}

static bool other_calls(int kind)
{
	uint8_t text[22], untouched[22];
	memset(untouched, 'x', sizeof untouched);
	memcpy(text, untouched, sizeof text);
	Clock c = sound(kind, 2);
	struct heukelvos_told t = heukelvos_read(c);
	struct heukelvos_told none = heukelvos_read(unsound(kind, 0));
	return heukelvos_label(c, text, 19) == HEUKELVOS_REFUSED_ROOM && memcmp(text, untouched, sizeof text) == 0
		&& heukelvos_label(unsound(kind, 0), text, 0) == HEUKELVOS_REFUSED_STATE && memcmp(text, untouched, sizeof text) == 0
		&& heukelvos_label(c, text, sizeof text) == 0 && memcmp(text, "2026-12-31T23:59:58Zxx", sizeof text) == 0
		&& t.refusal == 0 && t.reading.seconds == c.seconds && t.reading.micros == 500000 && t.reading.status == HEUKELVOS_TIME_INS
		&& t.reading.maxerror == ASKED_MAXERROR && t.reading.esterror == ASKED_ESTERROR
		&& none.refusal == HEUKELVOS_REFUSED_STATE && none.reading.seconds == 0 && none.reading.micros == 0
		&& none.reading.status == HEUKELVOS_TIME_BAD && none.reading.maxerror == 0 && none.reading.esterror == 0
		&& heukelvos_set(c, UINT64_C(1) << 32, 0).refusal == HEUKELVOS_REFUSED_TIME && same(heukelvos_set(c, 0, 1000000).clock, c);
}

/* A setting keeps the frequency and the kind, and so its adjustment and its remainder are what both lead to. */
static bool settings(int kind)
{
	int32_t frequency = -33 * HEUKELVOS_FREQUENCY_PER_PPM - 5;
	Clock c = adjusted(kind, 0, 0, frequency, 1000, 4, HEUKELVOS_TIME_OK);
	c.leftover = 7;
	c = heukelvos_set(c, 5, 6).clock;
	return c.seconds == 5 && c.micros == 6 && c.kind == kind && c.frequency == frequency && c.constant == 4 && c.offset == 0
		&& c.adjustment == frequency / devices[kind].parts + devices[kind].base && c.remainder == -5 && c.leftover == 0;
}

/*
 * The time of a clock in parts of a phase unit, modulo 2^64: two times that are equal so and lie less than 2^64 parts apart, which is more than
 * 17 minutes, are equal.
 */
static uint64_t exact(Clock c)
{
	uint64_t micros = UINT64_C(1000000) * c.seconds + c.micros;
	return (micros * HEUKELVOS_PHASE_PER_MICRO + c.phase) * devices[c.kind].parts + c.leftover;
}

/* A clock with no offset goes forward by the same parts in each tick, and none is lost: of frequencies that leave the most and the least. */
static bool nothing_lost(int kind)
{
	static const int32_t frequencies[] = { 1, -1, 15, -15, 16, -16, 17, 63, -63, 65, -123457, HEUKELVOS_MAX_FREQUENCY - 1,
		1 - HEUKELVOS_MAX_FREQUENCY };
	const struct device *d = &devices[kind];
	for (size_t k = 0; k < sizeof frequencies / sizeof *frequencies; k++) {
		Clock c = fresh(kind);
		c.frequency = frequencies[k];
		c = heukelvos_set(c, midnight - 100, 0).clock;
		const uint64_t tick = (UINT64_C(1) * d->tick * HEUKELVOS_PHASE_PER_MICRO + d->base) * d->parts + frequencies[k];
		uint64_t at = exact(c);
		for (int n = 0; n < 3000; n++)
			if (heukelvos_tick_in_place(&c) != 0 || exact(c) != (at += tick))
				return printf("    frequency %" PRId32 ", tick %d\n", frequencies[k], n), show("after it", c), false;
		if (heukelvos_catch_up_in_place(&c, HEUKELVOS_MAX_CEILING, false).count != HEUKELVOS_MAX_CEILING || exact(c) != at + HEUKELVOS_MAX_CEILING * tick)
			return printf("    frequency %" PRId32 "\n", frequencies[k]), show("after a catch-up", c), false;
	}
	return true;
}

/*
 * The whole unit that comes together goes into the phase before its microseconds are taken. Here it makes one, or keeps one from being made;
 * and in the last second the tick is refused for it, or is not.
 */
static bool whole_unit(int kind, int way)
{
	const struct device *d = &devices[kind];
	Clock c = fresh(kind), with, without;
	c.phase = HEUKELVOS_PHASE_PER_MICRO - d->base - (way > 0);
	c.remainder = way;
	c.leftover = way * (d->parts - 1);
	with = heukelvos_tick(c).clock;
	c.leftover -= way;
	without = heukelvos_tick(c).clock;
	if ((int)with.micros != d->tick + (way > 0) || with.phase != (way > 0 ? 0 : HEUKELVOS_PHASE_PER_MICRO - 1) || with.leftover != 0
	    || (int)without.micros != d->tick + (way < 0) || without.phase != (way < 0 ? 0 : HEUKELVOS_PHASE_PER_MICRO - 1)
	    || without.leftover != way * (d->parts - 1))
		return show("with the unit", with), show("without", without), false;
	c.seconds = HEUKELVOS_LAST_SECOND;
	c.micros = HEUKELVOS_LAST_MICRO - d->tick;
	without = c;
	with = c;
	with.leftover += way;
	return heukelvos_tick_in_place(way > 0 ? &with : &without) == HEUKELVOS_REFUSED_LAST && heukelvos_tick_in_place(way > 0 ? &without : &with) == 0
		&& (way > 0 ? with : without).leftover == way * (d->parts - (way > 0 ? 1 : 2));
}

/* A request moves neither the remainder nor the leftover; the next rollover does, after its tick has added the one before. */
static bool in_force(int kind)
{
	const int32_t parts = devices[kind].parts;
	Clock c = fresh(kind), before = c;
	c.frequency = 3;
	c = heukelvos_set(c, 0, 0).clock;
	c.leftover = 2;
	c = asked_for(c, -5, 1000, 0, HEUKELVOS_TIME_OK);
	if (c.remainder != 3 || c.leftover != 2)
		return show("after a request", c), false;
	while (before.micros <= c.micros) {
		before = c;
		if (heukelvos_tick_in_place(&c) != 0)
			return show("refused", c), false;
	}
	return c.remainder == -5 && c.leftover == (before.leftover + 3) % parts && before.remainder == 3;
}

static bool parts_of_a_unit(int kind)
{
	return nothing_lost(kind) && whole_unit(kind, 1) && whole_unit(kind, -1) && in_force(kind);
}

/* The day of calls on one lent clock, of the kind that the replay uses. With `history` the events, else the lines. */
static bool history;
static Clock day;

static void printed(void)
{
	uint8_t label[HEUKELVOS_LABEL_SIZE];
	if (history) {
		puts("print");
		return;
	}
	heukelvos_label(day, label, sizeof label);
	printf("%.*s %06" PRIu32 " %d\n", (int)sizeof label, (const char *)label, day.micros, day.status);
}

/* A catch-up is told as the ticks that it tried: the accepted ones, and the one that was refused. */
static void slept(uint64_t ceiling, bool stop)
{
	struct heukelvos_counted r = heukelvos_catch_up_in_place(&day, ceiling, stop);
	if (history)
		printf("tick %" PRIu64 "\n", r.count + (r.tick_refusal != 0));
	else if (r.tick_refusal)
		printf("refused %d\n", r.tick_refusal);
	printed();
}

static void set(uint64_t seconds, int64_t offset, int64_t frequency, uint64_t status)
{
	day = asked_for(heukelvos_set(day, seconds, 0).clock, frequency, offset, 1, status);
	if (history)
		printf("set %" PRIu64 " 0\nrequest offset %" PRId64 " frequency %" PRId64
		       " maxerror %d esterror %d constant 1\nrequest status %" PRIu64 "\n",
		       seconds, offset, frequency, ASKED_MAXERROR, ASKED_ESTERROR, status);
}

static void day_of_calls(void)
{
	day = fresh(HEUKELVOS_KIND_256);
	set(1798750000, 90000, -5 * HEUKELVOS_FREQUENCY_PER_PPM, HEUKELVOS_TIME_INS);
	for (int n = 0; n < 1000000; n++)
		heukelvos_tick_in_place(&day);
	if (history)
		puts("tick 1000000");
	printed();
	slept(HEUKELVOS_MAX_CEILING, false);
	for (uint64_t ceiling = 0; ceiling <= 2048; ceiling += 256)
		slept(ceiling, true);
	set(1798761590, 4321, 99 * HEUKELVOS_FREQUENCY_PER_PPM, HEUKELVOS_TIME_INS);
	for (int n = 0; n < 14; n++)
		slept(HEUKELVOS_MAX_CEILING, true);
	set(HEUKELVOS_LAST_SECOND - 3, -4321, 0, HEUKELVOS_TIME_OK);
	for (int n = 0; n < 5; n++)
		slept(HEUKELVOS_MAX_CEILING, true);
	slept(HEUKELVOS_MAX_CEILING, false);
}

/* Whether a check finds nothing wrong with clocks of either kind. */
static bool both(bool (*right)(int kind))
{
	for (int kind = 0; kind < KINDS; kind++)
		if (!right(kind))
			return printf("    of kind %d\n", kind), false;
	return true;
}

int main(int argc, char **argv)
{
	if (argc == 2 && (strcmp(argv[1], "history") == 0 || strcmp(argv[1], "lines") == 0)) {
		history = strcmp(argv[1], "history") == 0;
		day_of_calls();
		return 0;
	}
	if (argc != 1)
		return fprintf(stderr, "usage: lent_clock [history | lines]\n"), 2;
	check("fresh clocks of every number", fresh_clocks());
	check("the library's clock is the header's, field by field", both(layout));
	check("a million ticks in place, and by value, through each leap", both(million_ticks));
	check("how many ticks a second has", both(seconds_of_ticks));
	check("the rollovers since an offset: ticks in place, leaps, the limit, offsets and settings", both(intervals));
	check("offsets that come too soon", both(too_soon));
	check("ticks that are refused", both(refused_ticks));
	check("catch-ups at their edges: lent, by value, by single ticks", both(edges));
	check("200,000 catch-ups of random clocks: lent, by value, by single ticks", random_runs());
	check("requests", both(requests));
	check("what is worked out with the header's numbers", both(worked_out));
	check("settings", both(settings));
	check("parts of a phase unit: none is lost, whole units, what is in force", both(parts_of_a_unit));
	check("refused settings, readings, labels", both(other_calls));
	check("labels into long buffers", both(long_labels));
	return failed != 0;
}
