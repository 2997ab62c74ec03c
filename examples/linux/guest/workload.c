/*
 * The guest's process: it does to its address space what processes do.
 *
 *     workload live SEED ROUNDS PART..     has its own address space watched, from exec to the mark at its end
 *     workload die SEED ROUNDS PART..      .. to its exit, where nothing is mapped any more
 *     workload here SEED ROUNDS PART..     .. from a mark on, when it has a few thousand pages, to the mark at its end
 *     workload maps SEED ROUNDS PART..     .. as with live; where it ends it stops, and what the kernel says of its mappings is written
 *     workload maps-here SEED ROUNDS PART..    .. as with here; the same where it begins and where it ends
 *     workload dump SEED ROUNDS PART..     has the kernel dump the tables of a process that has stopped after these parts, and ends QEMU
 *     workload fork SEED PAGES             has the address space watched that fork makes of one with so many pages
 *     workload exec PROGRAM WORD..         has another program's watched, from exec to exit
 *     workload later N PROGRAM WORD..      .. the one that is made when N others were made from that exec on, to its end
 *     workload attach S N PROGRAM WORD..   .. the same, but only when it has run for S seconds already
 *     workload monitor SEED ROUNDS         has the nested tables watched of a virtual machine, whose monitor it is
 *     workload logged SEED ROUNDS PART..   .. of one that writes all the time, while the log of its writes is taken; after these parts
 *     workload pair SEED ROUNDS PART..     .. of one with two processors that read and write all the time, while its memory is changed or,
 *                                          after parts, the log of its writes is taken; its monitor is watched too
 *     workload again                       what is watched isn't any more, and another address space may be
 *     workload tick MICROSECONDS           sleeps and wakes for ever: at each of these interrupts QEMU goes to the next processor
 *
 * A store to the page of marks is a word to the plugin (plugin/watch.c). A line WRONG says that the process saw something
 * that shouldn't be.
 */
#include "mappings.h"
#include "marks.h"
#include "monitor.h"
#include "others.h"
#include "parts.h"

#include <errno.h>
#include <signal.h>
#include <stdio.h>
#include <stdlib.h>
#include <string.h>
#include <sys/wait.h>
#include <unistd.h>

static int report(const char *what, int status)
{
	printf("ENDED %s with status %x\n", what, (unsigned)status);
	return 0;
}

static int end_of(pid_t child)
{
	int status;

	waitpid(child, &status, 0);
	return status;
}

/* The next address space that is made is that of the program which the child becomes; `mark` says which is watched. */
static pid_t begin_program(int until_empty, uint64_t mark, char **words)
{
	pid_t child = fork();

	if (!child) {
		if (until_empty)
			say(MARK_WHEN_EMPTY);
		say(mark);
		execv(words[0], words);
		printf("WRONG exec: %s\n", strerror(errno));
		_exit(8);
	}
	return child;
}

static int exec_watched(int until_empty, uint64_t mark, char **words)
{
	return report(words[0], end_of(begin_program(until_empty, mark, words)));
}

/* A program runs already when it is watched from here on; nothing of it is under way then. */
static int attach(unsigned seconds, uint64_t mark, char **words)
{
	pid_t child = begin_program(1, mark, words);

	sleep(seconds);
	stop_others();
	say(MARK_HERE);
	let_others_run();
	return report(words[0], end_of(child));
}

static int fork_watched(uint64_t pages)
{
	char *at = map_at(0x50000000, pages * PAGE, READ_WRITE, PRIVATE, -1);
	pid_t child;

	madvise(at, pages * PAGE, MADV_NOHUGEPAGE);
	touch(at, pages * PAGE);
	say(MARK_WHEN_EMPTY);
	say(MARK_NEXT);
	child = fork();
	if (!child) {
		touch(at, pages / 2 * PAGE);
		look(at, pages * PAGE);
		_exit(0);
	}
	touch(at, pages / 4 * PAGE);
	return report("fork", end_of(child));
}

static int is_of_monitor(const char *what)
{
	static const char *const all[] = { "monitor", "logged", "pair", "sparse", "dense" };
	unsigned k = 0;

	while (k < sizeof all / sizeof all[0] && strcmp(what, all[k]))
		k++;
	return k < sizeof all / sizeof all[0];
}

static int monitor_watched(const char *what, char **names)
{
	int others, is_planted = *names != NULL;

	for (; *names; names++)
		run_part(*names);
	say(MARK_HERE); /* to a plugin that watches the monitor itself; the other one waits for its machine */
	say(MARK_NEXT);
	if (!strcmp(what, "monitor"))
		others = run_monitor(seed, rounds);
	else if (!strcmp(what, "sparse") || !strcmp(what, "dense"))
		others = run_sparse(rounds, !strcmp(what, "dense"));
	else
		others = !strcmp(what, "logged") ? run_logged(rounds) : run_pair(seed, rounds, is_planted);
	printf("DONE, %d wrong\n", others);
	say(MARK_END);
	return others != 0;
}

static int run_parts(int marks_end, char **names)
{
	catch_faults();
	for (; *names; names++)
		run_part(*names);
	printf("DONE, %d wrong\n", wrong);
	if (marks_end)
		say(MARK_END);
	return wrong != 0;
}

/* At its end it stops, so that another can ask for its mappings. Nothing is mapped between its mark and its stop: what is done there
 * was done before. */
static int run_parts_and_stop(char **names)
{
	int status;

	kill(getpid(), 0);
	status = run_parts(1, names);
	stop();
	return status;
}

static void use_pages(void)
{
	touch(map_at(0x40000000, 3000 * PAGE, READ_WRITE, PRIVATE, -1), 3000 * PAGE);
}

/* The same, and it stops before it is watched. */
static int tell_from_here_on(char **names)
{
	pid_t child;

	let_pages_be();
	child = fork();
	if (child)
		return report("maps-here", tell_at_each_stop(child));
	use_pages();
	run_part("kinds");
	say(MARK_NONE);
	stop();
	say(MARK_HERE);
	return run_parts_and_stop(names);
}

static int dump_after(char **names)
{
	pid_t child;

	let_pages_be();
	child = fork();
	if (child) {
		dump_at_stop(child);
		return 1;
	}
	catch_faults();
	use_pages();
	for (; *names; names++)
		run_part(*names);
	stop();
	return 0;
}

/* The program again, watched from its birth on. */
static int run_again(const char *name, int until_empty, char **words)
{
	words[1] = (char *)name;
	return exec_watched(until_empty, MARK_NEXT, words);
}

static int tell_of_program(char **words)
{
	let_pages_be();
	words[1] = "watched-maps";
	return report(words[0], tell_at_each_stop(begin_program(0, MARK_NEXT, words)));
}

static int run_named(const char *what, char **words)
{
	if (!strcmp(what, "live"))
		return run_again("watched-live", 0, words);
	if (!strcmp(what, "die"))
		return run_again("watched-die", 1, words);
	if (!strcmp(what, "maps"))
		return tell_of_program(words);
	if (!strcmp(what, "maps-here"))
		return tell_from_here_on(words + 4);
	if (!strcmp(what, "dump"))
		return dump_after(words + 4);
	if (!strcmp(what, "watched-maps"))
		return run_parts_and_stop(words + 4);
	if (!strncmp(what, "watched-", 8))
		return run_parts(!strcmp(what, "watched-live"), words + 4);
	printf("WRONG the command line\n");
	return 2;
}

int main(int count, char **words)
{
	const char *what = count > 2 ? words[1] : "";

	setvbuf(stdout, NULL, _IONBF, 0);
	seed = count > 2 ? strtoul(words[2], NULL, 0) : 0;
	rounds = count > 3 ? (unsigned)strtoul(words[3], NULL, 0) : 0;
	if (!strcmp(what, "tick"))
		for (;;)
			usleep((unsigned)seed);
	map_marks();
	if (count == 2 && !strcmp(words[1], "again")) {
		say(MARK_AGAIN);
		return 0;
	}
	if (!strcmp(what, "exec"))
		return exec_watched(1, MARK_NEXT, words + 2);
	if (!strcmp(what, "later") && count > 3)
		return exec_watched(1, MARK_LATER + seed, words + 3);
	if (!strcmp(what, "attach") && count > 4)
		return attach((unsigned)seed, MARK_CHOSEN + rounds, words + 4);
	if (is_of_monitor(what) && count > 3)
		return monitor_watched(what, words + 4);
	if (!strcmp(what, "fork") && count > 3)
		return fork_watched(rounds);
	if (!strcmp(what, "here") && count > 3) {
		use_pages();
		say(MARK_HERE);
		return run_parts(1, words + 4);
	}
	return run_named(count > 3 ? what : "", words);
}
