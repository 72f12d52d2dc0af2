/*
 * The lent calls of the library, called from C, for bench/run to hold against C's own: the clock, the loop and the checksum are those of
 * bench/reference.c, so that `tick-in-place N` prints what its `tick N` prints.
 *
 *   tick-in-place N     N calls of heukelvos_tick_in_place
 *   tick-called N       N calls of C's own tick, which is not put into the loop: as any C library would have it
 *   tick-on-rig N       N calls of heukelvos_event_at, each a tick of the next of eight clocks
 *   tick-on-rig-called N    the same by C's own, which takes the same event and makes every call in place
 *
 * tick-in-place-1024 and tick-called-1024 are the same of the 1,024 Hz recorder. On the rig every other clock is of it.
 *
 * gcc -O3 -Ic bench/in_place.c crates/heukelvos_rig/out/libheukelvos_rig.a crates/heukelvos/out/libheukelvos.a
 */
#define main reference_main
#include "reference.c"
#undef main
#include <stddef.h>
#include "heukelvos.h"

_Static_assert(sizeof(struct clock) == sizeof(struct heukelvos_clock), "bench/reference.c has the fields of c/heukelvos.h");

/* The clock and the request of bench/reference.c are taken for the header's. */
#define SAME_PLACE(own, field) \
	_Static_assert(offsetof(struct own, field) == offsetof(struct heukelvos_##own, field), #own "." #field)

SAME_PLACE(clock, seconds);
SAME_PLACE(clock, micros);
SAME_PLACE(clock, phase);
SAME_PLACE(clock, offset);
SAME_PLACE(clock, frequency);
SAME_PLACE(clock, adjustment);
SAME_PLACE(clock, constant);
SAME_PLACE(clock, updated);
SAME_PLACE(clock, interval);
SAME_PLACE(clock, maxerror);
SAME_PLACE(clock, esterror);
SAME_PLACE(clock, status);
SAME_PLACE(clock, kind);
SAME_PLACE(clock, remainder);
SAME_PLACE(clock, leftover);
SAME_PLACE(request, mode);
SAME_PLACE(request, offset);
SAME_PLACE(request, frequency);
SAME_PLACE(request, maxerror);
SAME_PLACE(request, esterror);
SAME_PLACE(request, status);
SAME_PLACE(request, constant);

static inline int in_place(struct clock *c)
{
	return heukelvos_tick_in_place((struct heukelvos_clock *)c);
}

static __attribute__((noinline)) int called(struct clock *c)
{
	return tick(c);
}

static inline uint64_t ticks_by(int (*one)(struct clock *), int kind, uint64_t count)
{
	uint64_t values[64], sum = 0;
	fill_numbers(values);
	struct clock c = begun(values, kind);
	for (uint64_t i = 0; i < count; i++) {
		int refusal = one(&c);
		sum = mix(mix(sum, refusal), c.micros);
	}
	return mix_clock(sum, &c);
}

typedef struct heukelvos_answer rig_call(struct heukelvos_clock *table, size_t clocks, size_t place, struct heukelvos_event e);

/* C's own: the event made in place, on the table's clock. */
static __attribute__((noinline)) struct heukelvos_answer event_called(struct heukelvos_clock *table, size_t clocks, size_t place, struct heukelvos_event e)
{
	struct heukelvos_answer a = { .reading.status = HEUKELVOS_TIME_BAD };
	struct run r = { 0 };
	if (e.code > HEUKELVOS_EVENT_CATCH_UP)
		a.refusal = HEUKELVOS_REFUSED_FIELD;
	else if (clocks > HEUKELVOS_MAX_CLOCKS)
		a.refusal = HEUKELVOS_REFUSED_TABLE;
	else if (place >= clocks)
		a.refusal = HEUKELVOS_REFUSED_PLACE;
	if (a.refusal)
		return a;
	struct clock *c = (struct clock *)table + place;
	switch (e.code) {
	case HEUKELVOS_EVENT_TICK: a.refusal = tick(c); break;
	case HEUKELVOS_EVENT_SETTING: a.refusal = set(c, e.seconds, e.micros); break;
	case HEUKELVOS_EVENT_REQUEST: a.refusal = adjust(c, (const struct request *)&e.request); break;
	case HEUKELVOS_EVENT_READING:
		a.refusal = in_range(c) ? 0 : HEUKELVOS_REFUSED_STATE;
		if (!a.refusal)
			a.reading = (struct heukelvos_reading){ c->seconds, c->micros, c->status, c->maxerror, c->esterror };
		break;
	default:
		a.refusal = catch_up(c, e.ceiling, e.stop, &r);
		a.count = r.count;
		a.tick_refusal = r.refusal;
	}
	return a;
}

static inline uint64_t ticks_on_rig(rig_call *one, uint64_t count)
{
	uint64_t values[64], sum = 0;
	fill_numbers(values);
	struct clock table[HEUKELVOS_MAX_CLOCKS];
	for (int n = 0; n < HEUKELVOS_MAX_CLOCKS; n++)
		table[n] = begun(values, n % 2 ? KIND_1024 : KIND_256);
	struct heukelvos_event e = { .code = HEUKELVOS_EVENT_TICK };
	for (uint64_t i = 0; i < count; i++) {
		size_t place = i % HEUKELVOS_MAX_CLOCKS;
		struct heukelvos_answer a = one((struct heukelvos_clock *)table, HEUKELVOS_MAX_CLOCKS, place, e);
		sum = mix(mix(sum, a.refusal), table[place].micros);
	}
	for (int n = 0; n < HEUKELVOS_MAX_CLOCKS; n++)
		sum = mix_clock(sum, &table[n]);
	return sum;
}

static inline __attribute__((always_inline)) uint64_t ticks_of(const char *word, uint64_t count)
{
	int kind = strstr(word, "-1024") ? KIND_1024 : KIND_256;
	if (strcmp(word, "tick-on-rig") == 0)
		return ticks_on_rig(heukelvos_event_at, count);
	if (strcmp(word, "tick-on-rig-called") == 0)
		return ticks_on_rig(event_called, count);
	return strncmp(word, "tick-called", 11) ? ticks_by(in_place, kind, count) : ticks_by(called, kind, count);
}

int main(void)
{
	char word[24];
	uint64_t count;
	while (scanf("%23s %" SCNu64, word, &count) == 2)
		printf("%" PRIu64 "\n", ticks_of(word, count));
	return 0;
}
