/*
 * Times whole runs of programs, by turns: for each the median of how much longer it takes on one input than on another, in nanoseconds.
 *
 * usage: medians TURNS INPUT EMPTY PROGRAM...     a PROGRAM is its path, and a space and a word where it wants one
 *
 * A program is started without a shell, since the start of one takes longer than the run that is timed.
 */
#define _GNU_SOURCE
#include <fcntl.h>
#include <spawn.h>
#include <stdio.h>
#include <stdlib.h>
#include <string.h>
#include <sys/wait.h>
#include <time.h>

extern char **environ;

static void fail(const char *what)
{
	fprintf(stderr, "medians: %s\n", what);
	exit(2);
}

static long long now(void)
{
	struct timespec t;
	clock_gettime(CLOCK_MONOTONIC, &t);
	return t.tv_sec * 1000000000LL + t.tv_nsec;
}

static long long run(char *const *argv, const char *input)
{
	posix_spawn_file_actions_t files;
	pid_t child;
	int status;
	posix_spawn_file_actions_init(&files);
	posix_spawn_file_actions_addopen(&files, 0, input, O_RDONLY, 0);
	posix_spawn_file_actions_addopen(&files, 1, "/dev/null", O_WRONLY, 0);
	long long began = now();
	if (posix_spawn(&child, argv[0], &files, NULL, argv, environ))
		fail("a program can't be started");
	if (waitpid(child, &status, 0) != child || status != 0)
		fail("a program failed");
	long long took = now() - began;
	posix_spawn_file_actions_destroy(&files);
	return took;
}

static int ascending(const void *a, const void *b)
{
	long long x = *(const long long *)a, y = *(const long long *)b;
	return (x > y) - (x < y);
}

int main(int argc, char **argv)
{
	long turns = argc > 4 ? atol(argv[1]) : 0;
	int programs = argc - 4;
	if (turns < 1)
		fail("usage: medians TURNS INPUT EMPTY PROGRAM...");
	char *(*words)[3] = calloc(programs, sizeof *words);
	long long *took = calloc(programs * turns, sizeof *took);
	if (!words || !took)
		fail("no memory");
	for (int k = 0; k < programs; k++) {
		words[k][0] = strtok(argv[4 + k], " ");
		words[k][1] = strtok(NULL, " ");
	}
	for (long i = 0; i < turns; i++)
		for (int k = 0; k < programs; k++) {
			long long whole = run(words[k], argv[2]);
			took[k * turns + i] = whole - run(words[k], argv[3]);
		}
	for (int k = 0; k < programs; k++) {
		qsort(took + k * turns, turns, sizeof *took, ascending);
		printf("%lld\n", took[k * turns + turns / 2]);
	}
	return 0;
}
