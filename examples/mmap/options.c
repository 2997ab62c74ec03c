#define _GNU_SOURCE
#include "options.h"

#include <sched.h>
#include <stdarg.h>
#include <stdio.h>
#include <stdlib.h>
#include <string.h>
#include <unistd.h>

struct options options = { .seconds = 10, .events = 131072, .pages = 32, .seed = 1, .keep = "mmap-fault.chain", .pinned = -1 };

static const char *const slip_names[SLIPS] = { "none", "early-reply", "lying-handler", "wrong-frame", "forgotten-change" };

static void say(const char *before, const char *format, va_list words)
{
	fflush(stdout);
	fprintf(stderr, "%s", before);
	vfprintf(stderr, format, words);
	fprintf(stderr, "\n");
}

void stop(const char *format, ...)
{
	va_list words;

	va_start(words, format);
	say("nrvs_mmap: ", format, words);
	_exit(2);
}

void found(const char *format, ...)
{
	va_list words;

	va_start(words, format);
	say("no: ", format, words);
	_exit(1);
}

_Noreturn static void usage(void)
{
	fprintf(stderr,
		"nrvs_mmap [--seconds N] [--threads N] [--seed S]: threads map, unmap, protect and move pages of a window of this process,\n"
		"and access them. nrvs judges whether each access was answered as the kernel had promised.\n"
		"\n"
		"--seconds N     how long it takes, and at most a second more: 10; 0 is until it is interrupted\n"
		"--segments N    it ends after so many segments\n"
		"--threads N     1 to 64 threads: twice as many as processors, and at least 4\n"
		"--changers N    so many of them change pages, and the others access them: half\n"
		"--pages N       so many pages of 4 KiB side by side, 0 to 32: of few pages more accesses meet a change\n"
		"--seed S        of what is drawn\n"
		"--pin, --float  each thread stays on one processor; none does. Otherwise some segments so and some so\n"
		"--only A,B:3    these operations and no others, B three times as often;  --without A,B: not these;  --list: which there are\n"
		"--events N      events of a segment, 2048 to 131072\n"
		"--nrvs PROGRAM  the auditor; also NRVS in the environment, or a program nrvs in the same folder\n"
		"--write FILE    writes the chain there, and judges nothing; - is standard output\n"
		"--wait          prints READY when all threads are there; a line of standard input begins it, the next one ends it\n"
		"--keep FILE     where the segment with a fault is kept: mmap-fault.chain\n"
		"--slip NAME     the recorder itself makes a mistake, which nrvs has to find:");
	for (unsigned k = 1; k < SLIPS; k++)
		fprintf(stderr, " %s", slip_names[k]);
	fprintf(stderr, "\n\nstatus: 0 yes, 1 no, 2 no verdict, 3 out of memory\n");
	exit(2);
}

static uint64_t number(const char *word, uint64_t least, uint64_t most)
{
	char *end;
	uint64_t value = strtoull(word, &end, 10);

	if (*word < '0' || *word > '9' || *end || value < least || value > most)
		usage();
	return value;
}

static double seconds(const char *word)
{
	char *end;
	double value = strtod(word, &end);

	if (*word < '0' || *word > '9' || *end || !(value <= 1e9))
		usage();
	return value;
}

static enum slip named_slip(const char *word)
{
	for (unsigned k = 0; k < SLIPS; k++)
		if (!strcmp(word, slip_names[k]))
			return (enum slip)k;
	usage();
}

/* An option with a value. */
static void read_option(const char *name, const char *value)
{
	if (!strcmp(name, "--seconds"))
		options.seconds = seconds(value);
	else if (!strcmp(name, "--segments"))
		options.segments = number(value, 1, UINT64_MAX);
	else if (!strcmp(name, "--threads"))
		options.threads = (unsigned)number(value, 1, 64);
	else if (!strcmp(name, "--changers"))
		options.changers = (unsigned)number(value, 1, 64);
	else if (!strcmp(name, "--events"))
		options.events = (uint32_t)number(value, 2048, 131072);
	else if (!strcmp(name, "--pages"))
		options.pages = (unsigned)number(value, 0, 32);
	else if (!strcmp(name, "--seed"))
		options.seed = number(value, 0, UINT64_MAX);
	else if (!strcmp(name, "--nrvs"))
		options.program = value;
	else if (!strcmp(name, "--write"))
		options.write = value;
	else if (!strcmp(name, "--keep"))
		options.keep = value;
	else if (!strcmp(name, "--only"))
		options.only = value;
	else if (!strcmp(name, "--without"))
		options.without = value;
	else if (!strcmp(name, "--slip"))
		options.slip = named_slip(value);
	else
		usage();
}

void options_read(int count, char **words)
{
	long processors = sysconf(_SC_NPROCESSORS_ONLN);

	for (int k = 1; k < count; k++) {
		if (!strcmp(words[k], "--pin")) {
			options.pinned = 1;
		} else if (!strcmp(words[k], "--float")) {
			options.pinned = 0;
		} else if (!strcmp(words[k], "--list")) {
			options.list = 1;
		} else if (!strcmp(words[k], "--wait")) {
			options.waits = 1;
		} else if (k + 1 < count) {
			read_option(words[k], words[k + 1]);
			k++;
		} else {
			usage();
		}
	}
	if (options.threads == 0)
		options.threads = processors < 2 ? 4 : processors > 32 ? 64 : (unsigned)processors * 2;
	if (options.changers == 0)
		options.changers = options.threads < 2 ? 1 : options.threads / 2;
	if (options.changers > options.threads)
		stop("--changers is above --threads");
}

/* How often a list has a name: NAME:N is N times, and NAME once. */
static unsigned times_in(const char *names, const char *name)
{
	const size_t length = strlen(name);

	for (const char *at = names; at; at = strchr(at, ',') ? strchr(at, ',') + 1 : NULL) {
		if (strncmp(at, name, length))
			continue;
		if (at[length] == ':')
			return (unsigned)strtoul(at + length + 1, NULL, 10);
		if (at[length] == ',' || at[length] == 0)
			return 1;
	}
	return 0;
}

int options_refuse(const char *name) { return options.without && times_in(options.without, name) > 0; }

unsigned options_weight(const char *operation, unsigned weight)
{
	if (options_refuse(operation))
		return 0;
	return options.only ? times_in(options.only, operation) : weight;
}

int options_want(const char *operation) { return options_weight(operation, 1) > 0; }
