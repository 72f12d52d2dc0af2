/*
 * A program that hangs several recorders on one host, and holds heukelvos_event_at to c/heukelvos.h. test/c_program.sh builds and runs it.
 *
 *   rig                  compares every call with the call by value on the one clock, and the rest of the memory around the table byte for byte; a
 *                        line for each check, and exit status 1 where one fails
 *   rig history PLACE    what a day on a rig of eight did to the recorder at a place, in the text form of bin/history; those at 0, 2, 4 and 6
 *                        are of the kind that the replay uses
 *   rig lines PLACE      what the replay must print for that history, from the answers of the same calls
 */
#include <stdlib.h>
#include <string.h>
#include "clocks.h"

#define SIZE(type, n) _Static_assert(sizeof(struct type) == (n), "size of " #type)
#define PLACE(type, field, n) _Static_assert(offsetof(struct type, field) == (n), #type "." #field)

SIZE(heukelvos_event, 96);
PLACE(heukelvos_event, code, 0);
PLACE(heukelvos_event, seconds, 8);
PLACE(heukelvos_event, micros, 16);
PLACE(heukelvos_event, request, 24);
PLACE(heukelvos_event, ceiling, 80);
PLACE(heukelvos_event, stop, 88);
SIZE(heukelvos_answer, 40);
PLACE(heukelvos_answer, refusal, 0);
PLACE(heukelvos_answer, count, 8);
PLACE(heukelvos_answer, tick_refusal, 16);
PLACE(heukelvos_answer, reading, 20);

typedef struct heukelvos_event Event;
typedef struct heukelvos_answer Answer;

#define CODES 5
#define TRIED 9 /* clocks of a table: one more than is allowed */

static bool same_answer(Answer a, Answer b)
{
	return a.refusal == b.refusal && a.count == b.count && a.tick_refusal == b.tick_refusal && a.reading.seconds == b.reading.seconds
		&& a.reading.micros == b.reading.micros && a.reading.status == b.reading.status && a.reading.maxerror == b.reading.maxerror
		&& a.reading.esterror == b.reading.esterror;
}

static Answer refused_with(uint8_t refusal)
{
	Answer a = { 0 };
	a.refusal = refusal;
	a.reading.status = HEUKELVOS_TIME_BAD;
	return a;
}

static Answer changed(Clock *c, struct heukelvos_outcome o)
{
	*c = o.clock;
	return refused_with(o.refusal);
}

/* The call for an event on one clock, by value. */
static Answer alone(Clock *c, Event e)
{
	struct heukelvos_catch_up_answer made;
	struct heukelvos_told told;
	Answer a = refused_with(0);
	switch (e.code) {
	case HEUKELVOS_EVENT_TICK: return changed(c, heukelvos_tick(*c));
	case HEUKELVOS_EVENT_SETTING: return changed(c, heukelvos_set(*c, e.seconds, e.micros));
	case HEUKELVOS_EVENT_REQUEST: return changed(c, heukelvos_adjust(*c, e.request));
	case HEUKELVOS_EVENT_READING:
		told = heukelvos_read(*c);
		a.refusal = told.refusal;
		a.reading = told.reading;
		return a;
	default:
		made = heukelvos_catch_up(*c, e.ceiling, e.stop);
		*c = made.clock;
		a.refusal = made.refusal;
		a.count = made.count;
		a.tick_refusal = made.tick_refusal;
		return a;
	}
}

/* What the header says of a table of so many clocks, whichever they are: 0 where the event goes to the clock at the place. */
static uint8_t judged(size_t clocks, size_t place, Event e)
{
	if (e.code >= CODES)
		return HEUKELVOS_REFUSED_FIELD;
	if (clocks > HEUKELVOS_MAX_CLOCKS)
		return HEUKELVOS_REFUSED_TABLE;
	return place < clocks ? 0 : HEUKELVOS_REFUSED_PLACE;
}

/* A table of up to nine clocks, with one before it and one behind it that no call may touch. */
struct around {
	Clock all[TRIED + 2];
};

static Clock *table_of(struct around *a)
{
	return a->all + 1;
}

/* The bytes of two of them are the same, but for those of the clock at a place; of no clock where it lies beyond the table. */
static bool untouched(struct around *a, struct around *b, size_t place)
{
	static struct around left;
	memcpy(&left, b, sizeof left);
	if (place < TRIED)
		memcpy(table_of(&left) + place, table_of(a) + place, sizeof(Clock));
	return memcmp(a, &left, sizeof left) == 0;
}

static bool wrong(const char *what, size_t clocks, size_t place, Event e, Answer a, Answer wanted)
{
	printf("    %s: %zu clocks, place %zu, code %" PRIu64 ": refusal %d, count %" PRIu64 ", tick refusal %d, %" PRIu32 " s %" PRIu32
	       " us, status %d; wanted %d, %" PRIu64 ", %d, %" PRIu32 " s %" PRIu32 " us, status %d\n",
	       what, clocks, place, e.code, a.refusal, a.count, a.tick_refusal, a.reading.seconds, a.reading.micros, a.reading.status,
	       wanted.refusal, wanted.count, wanted.tick_refusal, wanted.reading.seconds, wanted.reading.micros, wanted.reading.status);
	return false;
}

/* One call: its answer, the clock at its place, and everything else. A refused call writes to no byte. */
static bool as_alone(struct around *now, size_t clocks, size_t place, Event e)
{
	static struct around was;
	memcpy(&was, now, sizeof was);
	uint8_t refusal = judged(clocks, place, e);
	Clock c = place < TRIED ? table_of(&was)[place] : was.all[0];
	Answer wanted = refusal ? refused_with(refusal) : alone(&c, e);
	Answer a = heukelvos_event_at(table_of(now), clocks, place, e);
	if (!same_answer(a, wanted))
		return wrong("answer", clocks, place, e, a, wanted);
	if (!untouched(&was, now, a.refusal ? TRIED : place))
		return wrong("another clock", clocks, place, e, a, wanted);
	if (!refusal && !same(table_of(now)[place], c))
		return show("the table's", table_of(now)[place]), show("by value", c), wrong("the clock", clocks, place, e, a, wanted);
	return true;
}

/* Every byte of the memory has a value, those between two fields too, which only a write can change. */
static void fill(struct around *a, Clock (*some)(void))
{
	memset(a, 0xa5, sizeof *a);
	for (int n = 0; n < TRIED + 2; n++) {
		Clock c = some();
		Clock *to = &a->all[n];
		to->seconds = c.seconds, to->micros = c.micros, to->phase = c.phase, to->offset = c.offset, to->frequency = c.frequency;
		to->adjustment = c.adjustment, to->constant = c.constant, to->updated = c.updated, to->interval = c.interval;
		to->maxerror = c.maxerror, to->esterror = c.esterror, to->status = c.status, to->kind = c.kind;
		to->remainder = c.remainder, to->leftover = c.leftover;
	}
}

static Clock some_sound(void) { return sound(draw(KINDS), draw(CLOCKS)); }
static Clock some_unsound(void) { return unsound(draw(KINDS), draw(FAULTS)); }
static Clock some_of_both(void) { return draw(2) ? some_sound() : some_unsound(); }

/* A number whose low bits a cut would keep: now and then one beyond 32 bits. */
static uint64_t wide(uint64_t number)
{
	return draw(16) ? number : number + (UINT64_C(1) << (32 + draw(32)));
}

/* Events of a code: accepted ones, ones that a clock of any state refuses, and numbers of another code that must not be looked at. */
static Event some_event(uint64_t code)
{
	Event e;
	memset(&e, 0xff, sizeof e);
	e.stop = draw(2);
	e.code = code;
	if (code == HEUKELVOS_EVENT_SETTING) {
		e.seconds = wide(draw(UINT64_C(1) << 32));
		e.micros = wide(draw(8) ? draw(1000000) : draw(1 << 21));
	} else if (code == HEUKELVOS_EVENT_REQUEST) {
		e.request.mode = wide(draw(72));
		e.request.offset = (int64_t)(wide(draw(300000)) - 150000);
		e.request.frequency = (int64_t)draw(UINT64_C(4) * HEUKELVOS_MAX_FREQUENCY) - INT64_C(2) * HEUKELVOS_MAX_FREQUENCY;
		e.request.maxerror = wide(draw(20000000));
		e.request.esterror = wide(draw(20000000));
		e.request.status = wide(draw(6));
		e.request.constant = wide(draw(6));
	} else if (code == HEUKELVOS_EVENT_CATCH_UP) {
		e.ceiling = wide(draw(8) ? draw(3000) : HEUKELVOS_MAX_CEILING - 2 + draw(5));
	}
	return e;
}

/* Tables of 0 to 9 clocks; every place of them, the first ones beyond, and some whose low 8, 16 or 32 bits are those of a place within. */
static bool tables(Clock (*some)(void))
{
	static const size_t far[] = { 10, 255, 256, 65536, UINT64_C(0x100000000), UINT64_C(0x100000001), SIZE_MAX - 1, SIZE_MAX };
	static struct around a;
	for (size_t clocks = 0; clocks <= TRIED; clocks++)
		for (size_t n = 0; n < TRIED + 1 + sizeof far / sizeof *far; n++)
			for (int turn = 0; turn < 8 * CODES; turn++) {
				fill(&a, some);
				if (!as_alone(&a, clocks, n <= TRIED ? n : far[n - TRIED - 1], some_event(turn % CODES)))
					return false;
			}
	return true;
}

/* A code that stands for no event is refused before the table is looked at, whatever its low bits are. */
static bool unknown_codes(void)
{
	static struct around a;
	for (size_t clocks = 0; clocks <= TRIED; clocks++)
		for (uint64_t code = CODES; code <= 300; code++) {
			fill(&a, some_of_both);
			if (!as_alone(&a, clocks, draw(TRIED + 1), some_event(code)))
				return false;
		}
	for (int width = 8; width < 64; width++)
		for (uint64_t code = 0; code < CODES; code++) {
			fill(&a, some_sound);
			if (!as_alone(&a, HEUKELVOS_MAX_CLOCKS, 0, some_event((UINT64_C(1) << width) + code)))
				return false;
		}
	return true;
}

/* Tables of more clocks than are allowed, whose number a cut to 8 or 16 bits would allow: 19, and no byte is written. */
static bool long_tables(void)
{
	static const size_t lengths[] = { 10, 255, 256, 257, 264, 65536, 65537, 65544 };
	static Clock table[65544], was[65544];
	memset(table, 0xa5, sizeof table);
	for (size_t n = 0; n < sizeof table / sizeof *table; n++)
		table[n] = sound(n % KINDS, n % CLOCKS);
	memcpy(was, table, sizeof was);
	for (size_t k = 0; k < sizeof lengths / sizeof *lengths; k++)
		for (size_t place = 0; place <= lengths[k]; place += 1 + place / 16)
			for (uint64_t code = 0; code < CODES; code++) {
				Event e = some_event(code);
				Answer a = heukelvos_event_at(table, lengths[k], place, e);
				if (!same_answer(a, refused_with(HEUKELVOS_REFUSED_TABLE)))
					return wrong("a long table", lengths[k], place, e, a, refused_with(HEUKELVOS_REFUSED_TABLE));
			}
	return memcmp(was, table, sizeof was) == 0;
}

/* Three calls of four go to a clock of the table. */
static bool random_calls(void)
{
	static struct around a;
	for (int n = 0; n < 200000; n++) {
		if (n % 64 == 0)
			fill(&a, random_clock);
		size_t clocks = draw(8) ? 1 + draw(HEUKELVOS_MAX_CLOCKS) : draw(TRIED + 1);
		size_t place = draw(8) && clocks ? draw(clocks) : draw(TRIED + 1);
		if (!as_alone(&a, clocks, place, some_event(draw(64) ? draw(CODES) : draw(20))))
			return false;
	}
	return true;
}

/* Two tables with the same clock at the place, and any others: the same answer, and the same clock there. */
static bool named_clock_decides(void)
{
	static struct around a, b;
	for (int n = 0; n < 100000; n++) {
		fill(&a, random_clock);
		fill(&b, some_of_both);
		size_t clocks = draw(TRIED + 1), place = draw(8) && clocks ? draw(clocks) : draw(TRIED + 1);
		if (place < TRIED)
			table_of(&b)[place] = table_of(&a)[place];
		Event e = some_event(draw(CODES));
		Answer x = heukelvos_event_at(table_of(&a), clocks, place, e), y = heukelvos_event_at(table_of(&b), clocks, place, e);
		if (!same_answer(x, y) || (place < TRIED && !same(table_of(&a)[place], table_of(&b)[place])))
			return wrong("two tables", clocks, place, e, x, y);
	}
	return true;
}

/*
 * Recorders that begin fresh, each on a clock by itself too, to which its own events alone happen. Between two calls recorders change places, one is
 * exchanged for a fresh one, and some hang on a table of fewer; calls that the rig refuses, on nine clocks or beyond the table, come among the rest.
 */
static bool recorders(void)
{
	Clock table[TRIED], own[TRIED];
	for (int n = 0; n < TRIED; n++)
		table[n] = own[n] = fresh(n % KINDS);
	for (int n = 0; n < 400000; n++) {
		size_t place = draw(TRIED + 1), first = draw(4) ? 0 : draw(TRIED), clocks = draw(16) ? draw(TRIED - first + 1) : TRIED - first;
		size_t a = draw(TRIED), b = draw(TRIED);
		Event e = some_event(draw(16) ? HEUKELVOS_EVENT_TICK : draw(CODES + 1));
		uint8_t refusal = judged(clocks, place, e);
		Answer wanted = refusal ? refused_with(refusal) : alone(&own[first + place], e);
		Answer told = heukelvos_event_at(table + first, clocks, place, e);
		if (!same_answer(told, wanted))
			return wrong("a recorder", clocks, place, e, told, wanted);
		if (draw(64) == 0) {
			Clock c = table[a], d = own[a];
			table[a] = table[b], own[a] = own[b];
			table[b] = c, own[b] = d;
		}
		if (draw(4096) == 0)
			table[a] = own[a] = fresh(draw(KINDS));
		if (!same(table[a], own[a]))
			return show("of the rig", table[a]), show("by itself", own[a]), false;
	}
	return true;
}

/* An event of a day: mostly sleeps and readings; settings, soon before a day's end or the last second; requests, some of them bad. */
static Event of_a_day(void)
{
	Event e = { .code = HEUKELVOS_EVENT_CATCH_UP, .ceiling = draw(4) ? draw(300) : draw(3000) };
	switch (draw(24)) {
	case 0:
		e.code = HEUKELVOS_EVENT_SETTING;
		e.seconds = draw(8) ? midnight - 4 - draw(8) : HEUKELVOS_LAST_SECOND - draw(20);
		e.micros = draw(1000100);
		e.seconds += draw(16) ? 0 : 20;
		break;
	case 1:
	case 2:
	case 3:
		e.code = HEUKELVOS_EVENT_REQUEST;
		e.request = request_of(63 - HEUKELVOS_ADJ_STATUS);
		e.request.offset = (int64_t)draw(256200) - 128100;
		e.request.frequency = (int64_t)draw(UINT64_C(2) * HEUKELVOS_MAX_FREQUENCY + 1) - HEUKELVOS_MAX_FREQUENCY;
		e.request.maxerror = draw(20000);
		e.request.esterror = 20000 + draw(20000);
		e.request.constant = draw(40) ? draw(5) : 5;
		break;
	case 4:
	case 5:
	case 6:
		e.code = HEUKELVOS_EVENT_REQUEST;
		e.request = request_of(HEUKELVOS_ADJ_STATUS);
		e.request.status = draw(3) ? HEUKELVOS_TIME_INS + draw(2) : draw(6);
		break;
	case 7:
	case 8:
	case 9:
	case 10:
	case 11:
	case 12: e.code = HEUKELVOS_EVENT_READING; break;
	}
	return e;
}

static void told_as_event(Event e)
{
	if (e.code == HEUKELVOS_EVENT_SETTING)
		printf("set %" PRIu64 " %" PRIu64 "\n", e.seconds, e.micros);
	else if (e.code == HEUKELVOS_EVENT_READING)
		puts("print");
	else if (e.code == HEUKELVOS_EVENT_CATCH_UP)
		printf("tick %" PRIu64 "\n", e.ceiling);
	else if (e.request.mode == HEUKELVOS_ADJ_STATUS)
		printf("request status %" PRIu64 "\n", e.request.status);
	else
		printf("request offset %" PRId64 " frequency %" PRId64 " maxerror %" PRIu64 " esterror %" PRIu64
		       " constant %" PRIu64 "\n", e.request.offset, e.request.frequency, e.request.maxerror, e.request.esterror, e.request.constant);
}

static void told_as_line(Event e, Answer a, Clock c)
{
	uint8_t label[HEUKELVOS_LABEL_SIZE];
	if (a.refusal || a.tick_refusal)
		printf("refused %d\n", a.refusal ? a.refusal : a.tick_refusal);
	else if (e.code == HEUKELVOS_EVENT_READING && heukelvos_label(c, label, sizeof label) == 0)
		printf("%.*s %06" PRIu32 " %d\n", (int)sizeof label, (const char *)label, a.reading.micros, a.reading.status);
}

static void day_on_a_rig(size_t followed, bool history)
{
	Clock table[HEUKELVOS_MAX_CLOCKS];
	for (int n = 0; n < HEUKELVOS_MAX_CLOCKS; n++)
		table[n] = fresh(n % KINDS);
	for (int n = 0; n < 60000; n++) {
		size_t place = draw(HEUKELVOS_MAX_CLOCKS);
		Event e = of_a_day();
		Answer a = heukelvos_event_at(table, HEUKELVOS_MAX_CLOCKS, place, e);
		if (place == followed && history)
			told_as_event(e);
		else if (place == followed)
			told_as_line(e, a, table[place]);
	}
}

int main(int argc, char **argv)
{
	if (argc == 3 && strlen(argv[2]) == 1 && argv[2][0] >= '0' && argv[2][0] < '0' + HEUKELVOS_MAX_CLOCKS
	    && (strcmp(argv[1], "history") == 0 || strcmp(argv[1], "lines") == 0)) {
		day_on_a_rig(argv[2][0] - '0', strcmp(argv[1], "history") == 0);
		return 0;
	}
	if (argc != 1)
		return fprintf(stderr, "usage: rig [history PLACE | lines PLACE], PLACE from 0 to 7\n"), 2;
	check("tables of 0 to 9 sound clocks, every place", tables(some_sound));
	check("tables of 0 to 9 clocks out of range, every place", tables(some_unsound));
	check("tables of 0 to 9 clocks of both sorts, every place", tables(some_of_both));
	check("tables of 10 to 65,544 clocks", long_tables());
	check("codes that stand for no event", unknown_codes());
	check("200,000 calls on tables of random clocks", random_calls());
	check("the named clock decides, whatever the others are", named_clock_decides());
	check("recorders that change places, and each by itself", recorders());
	return failed ? EXIT_FAILURE : EXIT_SUCCESS;
}
