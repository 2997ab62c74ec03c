#define _GNU_SOURCE
#include "judge.h"
#include "options.h"
#include "pace.h"
#include "record.h"

#include <errno.h>
#include <fcntl.h>
#include <poll.h>
#include <signal.h>
#include <stdio.h>
#include <stdlib.h>
#include <string.h>
#include <sys/wait.h>
#include <unistd.h>

/*
 * The last segments are kept. Each begins with a start, so that the one with the fault is a chain by itself. The auditor judges a segment
 * when it has read all of it; behind that are those in the pipe, and the one that is written.
 */
enum { MOST_KEPT = 64, PIPE_BYTES = 1 << 18, LONGEST_LINE = 4096, FIRST = 10 };

static struct kept { char *bytes; uint64_t length, segment, events; } kept[MOST_KEPT]; /* events: up to its end, of the whole chain */
static unsigned kept_count;
static uint64_t segments; /* that have begun */
static uint64_t events;   /* of these */
static uint64_t written;  /* bytes of the chain */
static double until;      /* when nothing is waited for any more; 0: never */
static int to = -1, from = -1;
static pid_t auditor;

/* What the auditor has said: a line for each segment that it has judged, one with a fault, or one for all of the chain. */
static struct {
	char line[LONGEST_LINE];
	size_t length;
	uint64_t right, faulty;     /* segments; that with a fault */
	char verdict[LONGEST_LINE]; /* of the chain, or its fault */
} said;

/* A path to the program nrvs. */
static const char *find_program(void)
{
	static char beside[4096];
	const char *given = options.program ? options.program : getenv("NRVS");
	const ssize_t length = readlink("/proc/self/exe", beside, sizeof(beside) - 8);
	char *name;

	if (given)
		return given;
	if (length > 0) {
		beside[length] = 0;
		name = strrchr(beside, '/');
		memcpy(name ? name + 1 : beside, "nrvs", 5);
		if (access(beside, X_OK) == 0)
			return beside;
	}
	stop("no program nrvs beside this one: name it by --nrvs or NRVS");
}

/* The chain goes to the file; where that is standard output, all that is printed goes to standard error. */
static void open_file(void)
{
	if (strcmp(options.write, "-")) {
		to = open(options.write, O_WRONLY | O_CREAT | O_TRUNC | O_CLOEXEC, 0666);
	} else {
		to = fcntl(STDOUT_FILENO, F_DUPFD_CLOEXEC, 3);
		dup2(STDERR_FILENO, STDOUT_FILENO);
	}
	if (to < 0)
		stop("%s: %s", options.write, strerror(errno));
}

/* Runs a command of nrvs on what `in` has, with its output to `out`. */
_Noreturn static void be_program(const char *program, const char *command, const char *more, int in, int out)
{
	sigset_t none;

	sigemptyset(&none);
	sigprocmask(SIG_SETMASK, &none, NULL);
	signal(SIGINT, SIG_IGN);
	dup2(in, STDIN_FILENO);
	dup2(out, STDOUT_FILENO);
	execlp(program, "nrvs", command, "--chain", more, (char *)NULL);
	fprintf(stderr, "nrvs_mmap: %s: %s\n", program, strerror(errno));
	_exit(2);
}

void judge_begin(uint32_t shortest)
{
	int chain[2], verdict[2];
	const char *program;

	signal(SIGPIPE, SIG_IGN);
	kept_count = 3 + PIPE_BYTES / (shortest * 12);
	if (kept_count > MOST_KEPT)
		kept_count = MOST_KEPT;
	for (unsigned k = 0; k < kept_count; k++) {
		kept[k].bytes = malloc(record_most_bytes());
		if (!kept[k].bytes)
			stop("no memory for the segments that are kept");
	}
	if (options.write) {
		open_file();
		return;
	}
	program = find_program();
	if (strchr(program, '/') && access(program, X_OK) != 0)
		stop("no program %s: %s. NRVS=FILE says where one is: a release's bin/nrvs, say", program, strerror(errno));
	if (pipe2(chain, O_CLOEXEC) != 0 || pipe2(verdict, O_CLOEXEC) != 0)
		stop("pipe: %s", strerror(errno));
	fcntl(chain[1], F_SETPIPE_SZ, PIPE_BYTES);
	auditor = fork();
	if (auditor < 0)
		stop("fork: %s", strerror(errno));
	if (auditor == 0)
		be_program(program, "audit", "--json", chain[0], verdict[1]);
	close(chain[0]);
	close(verdict[1]);
	to = chain[1];
	from = verdict[0];
	fcntl(to, F_SETFL, O_NONBLOCK);
	fcntl(from, F_SETFL, O_NONBLOCK);
}

void judge_until(double time) { until = time; }

void judge_segment(uint32_t count)
{
	struct kept *next = &kept[segments % kept_count];

	events += count;
	next->length = 0;
	next->events = events;
	next->segment = segments++;
}

/* ---- what the auditor says ---- */

/* A line as `audit --json` prints it: of a segment that is right, of one with a fault, or of all. */
static void take_line(const char *line)
{
	const char *segment = strstr(line, "\"segment\":"), *verdict = strstr(line, "\"verdict\":\"");

	if (!verdict)
		return;
	verdict += strlen("\"verdict\":\"");
	if (segment && !strncmp(verdict, "yes\"", 4)) {
		said.right++;
		return;
	}
	said.faulty = segment ? strtoull(segment + strlen("\"segment\":"), NULL, 10) : UINT64_MAX;
	snprintf(said.verdict, sizeof(said.verdict), "%.*s", (int)strcspn(verdict, "\""), verdict);
}

/* What has come since; whether more may come. */
static int hear(void)
{
	ssize_t more;
	char *end;

	while ((more = read(from, said.line + said.length, sizeof(said.line) - 1 - said.length)) > 0) {
		said.length += (size_t)more;
		said.line[said.length] = 0;
		while ((end = strchr(said.line, '\n'))) {
			*end++ = 0;
			take_line(said.line);
			said.length -= (size_t)(end - said.line);
			memmove(said.line, end, said.length + 1);
		}
	}
	return more < 0 && (errno == EAGAIN || errno == EINTR);
}

/* Seconds in which the auditor is still waited for: some more where it has judged nothing yet. */
static double time_left(void)
{
	return until > 0 ? until - pace_now() + (said.right == 0 ? FIRST : 0) : 1;
}

/* Waits until something can be written there, or the auditor says something; whether there is time. -1 is no file. */
static int wait_for(int file)
{
	struct pollfd files[] = { { .fd = file, .events = POLLOUT }, { .fd = from, .events = POLLIN } };
	const double left = time_left();

	if (left <= 0)
		return 0;
	poll(files, 2, left < 1 ? 1 + (int)(left * 1000) : 1000);
	return 1;
}

uint64_t judge_judged(void)
{
	if (auditor == 0)
		return events;
	while (hear() && until > 0 && said.right < segments && wait_for(-1))
		;
	return said.right > 0 ? kept[(said.right - 1) % kept_count].events : 0;
}

static int write_all(int file, const char *bytes, uint64_t length)
{
	while (length > 0) {
		const ssize_t done = write(file, bytes, length);

		if (done < 0 && (errno == EINTR || (errno == EAGAIN && (hear(), 1) && wait_for(file))))
			continue;
		if (done <= 0)
			return 1;
		bytes += done;
		length -= (uint64_t)done;
	}
	return 0;
}

int judge_take(void *context, const uint8_t *bytes, uint32_t length)
{
	struct kept *now = &kept[(segments - 1) % kept_count];

	(void)context;
	if (now->length + length > record_most_bytes())
		return 1;
	memcpy(now->bytes + now->length, bytes, length);
	now->length += length;
	written += length;
	return write_all(to, (const char *)bytes, length);
}

/* Waits until the auditor has said all, and ends it where the time is over; its status, or -1. */
static int hear_all(void)
{
	int status;

	while (hear() && wait_for(-1))
		;
	if (time_left() <= 0 && waitpid(auditor, &status, WNOHANG) == 0) {
		kill(auditor, SIGKILL);
		while (waitpid(auditor, &status, 0) < 0 && errno == EINTR)
			;
		return -1;
	}
	while (waitpid(auditor, &status, 0) < 0 && errno == EINTR)
		;
	if (!WIFEXITED(status))
		stop("nrvs was ended by signal %d", WTERMSIG(status));
	return WEXITSTATUS(status);
}

/* The segment with the fault goes to a file, of which `nrvs explain` says more. */
static void show_fault(uint64_t segment)
{
	const struct kept *it = &kept[segment % kept_count];
	int file = -1;
	pid_t child;

	if (it->segment == segment && it->length > 0)
		file = open(options.keep, O_RDWR | O_CREAT | O_TRUNC | O_CLOEXEC, 0666);
	if (file < 0 || write_all(file, it->bytes, it->length) != 0) {
		printf("segment %llu is not kept%s%s\n", (unsigned long long)segment, file < 0 && it->segment == segment ? ": " : "",
		       file < 0 && it->segment == segment ? strerror(errno) : "");
		return;
	}
	printf("segment %llu is kept: nrvs explain --chain %s\n", (unsigned long long)segment, options.keep);
	fflush(stdout);
	lseek(file, 0, SEEK_SET);
	child = fork();
	if (child == 0)
		be_program(find_program(), "explain", NULL, file, STDOUT_FILENO);
	while (child > 0 && waitpid(child, NULL, 0) < 0 && errno == EINTR)
		;
	close(file);
}

/* The time is over, and the auditor was still at work: what it has judged counts. */
static int end_in_between(void)
{
	printf("left out: the last %llu of %llu segments, which nrvs had not judged when the time was over\n",
	       (unsigned long long)(segments - said.right), (unsigned long long)segments);
	if (said.right == 0)
		stop("no verdict: nrvs judged no segment in the time");
	printf("segments %llu\n", (unsigned long long)said.right);
	return 0;
}

int judge_end(void)
{
	int status;

	if (auditor == 0) {
		printf("a chain of %llu bytes\n", (unsigned long long)written);
		return close(to) == 0 ? 0 : 2;
	}
	close(to);
	status = hear_all();
	if (status < 0)
		return end_in_between();
	if (status == 1 && said.faulty != UINT64_MAX)
		printf("segment %llu\n", (unsigned long long)said.faulty);
	if (said.verdict[0])
		printf("%s\n", said.verdict);
	if (status == 1 && said.faulty != UINT64_MAX)
		show_fault(said.faulty);
	return status;
}
