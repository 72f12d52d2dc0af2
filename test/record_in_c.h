/* Records in hexadecimal, as the documents show them, and the clock that each is of: docs/REFERENCE.md, "Records". */
#include <stdio.h>
#include <stdlib.h>
#include "heukelvos.h"

static int64_t number(const char **at)
{
	int64_t n = 0;
	for (int shift = 0;; shift += 7) {
		unsigned byte;
		int used;
		if (sscanf(*at, "%2x%n", &byte, &used) != 1)
			exit(EXIT_FAILURE);
		*at += used;
		n |= (int64_t)(byte & 127) << shift;
		if (byte < 128)
			return n;
	}
}

static int64_t mapped(const char **at)
{
	int64_t n = number(at);
	return n % 2 ? -(n + 1) / 2 : n / 2;
}

/* Whether a record of version 4 begins here that is this clock's; `at` is then behind it. */
static bool is_record_of(const char **at, struct heukelvos_clock c)
{
	return number(at) == 4 && number(at) == c.kind && number(at) == c.seconds && number(at) == c.micros
		&& mapped(at) == c.phase && mapped(at) == c.offset && mapped(at) == c.frequency && mapped(at) == c.adjustment
		&& number(at) == c.constant && number(at) == c.updated && number(at) == c.interval
		&& number(at) == c.maxerror && number(at) == c.esterror && number(at) == c.status
		&& mapped(at) == c.remainder && mapped(at) == c.leftover;
}
