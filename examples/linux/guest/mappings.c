/*
 * What the kernel says of a process that is stopped, for examples/linux/mappings.py: a line `stopped`, the lines of its /proc/PID/smaps,
 * and of each page for which its pagemap has a word
 *
 *     page ADDRESS PAGEMAP FLAGS          hexadecimal; FLAGS are those of the page's frame in /proc/kpageflags, 0 where it has none
 *
 * and, where it is asked for, lines `dumped` and what module/page_tables.c shows; the last of these holds.
 */
#include "mappings.h"
#include "parts.h"

#include <fcntl.h>
#include <inttypes.h>
#include <signal.h>
#include <stdio.h>
#include <stdlib.h>
#include <string.h>
#include <sys/io.h>
#include <sys/syscall.h>
#include <sys/wait.h>
#include <termios.h>
#include <unistd.h>

#define LINE "/dev/ttyS1"
#define MODULE "/bin/page_tables.ko"
#define ROOM (1 << 20) /* bytes of a dump */
#define TRIES 20
#define POWER 0xf4 /* a port: a byte there ends QEMU at once */
#define PRESENT ((uint64_t)1 << 63) /* of a word of pagemap */
#define FRAME (((uint64_t)1 << 55) - 1)

void let_pages_be(void)
{
	put("/sys/kernel/mm/transparent_hugepage/khugepaged/scan_sleep_millisecs", "1000000000");
}

void stop(void)
{
	kill(getpid(), SIGSTOP);
}

static int open_of(pid_t process, const char *name)
{
	char path[64];
	int file;

	snprintf(path, sizeof path, "/proc/%d/%s", (int)process, name);
	file = open(path, O_RDONLY | O_CLOEXEC);
	if (file < 0) {
		printf("WRONG no %s\n", path);
		exit(1);
	}
	return file;
}

/* The word of a number in a file of words; 0 where there is none. */
static uint64_t word_of(int file, uint64_t number)
{
	uint64_t word = 0;

	return pread(file, &word, sizeof word, (off_t)(number * sizeof word)) == sizeof word ? word : 0;
}

static void tell_pages(FILE *line, int pagemap, int flags, uint64_t begin, uint64_t end)
{
	uint64_t word;

	for (uint64_t page = begin / PAGE; page < end / PAGE; page++) {
		word = word_of(pagemap, page);
		if (word)
			fprintf(line, "page %" PRIx64 " %" PRIx64 " %" PRIx64 "\n", page * PAGE, word,
				word & PRESENT ? word_of(flags, word & FRAME) : 0);
	}
}

static void tell(pid_t process)
{
	FILE *line = fopen(LINE, "w"), *smaps = fdopen(open_of(process, "smaps"), "r");
	int pagemap = open_of(process, "pagemap"), flags = open("/proc/kpageflags", O_RDONLY | O_CLOEXEC);
	uint64_t begin, end;
	char text[512];

	if (!line || !smaps || flags < 0) {
		printf("WRONG no " LINE " or no /proc/kpageflags\n");
		exit(1);
	}
	fprintf(line, "stopped\n");
	while (fgets(text, sizeof text, smaps)) {
		fputs(text, line);
		if (sscanf(text, "%" SCNx64 "-%" SCNx64 " ", &begin, &end) == 2)
			tell_pages(line, pagemap, flags, begin, end);
	}
	fclose(smaps);
	close(pagemap);
	close(flags);
	fclose(line);
}

int tell_at_each_stop(pid_t child)
{
	int status = 0;

	while (waitpid(child, &status, WUNTRACED) == child && WIFSTOPPED(status)) {
		tell(child);
		kill(child, SIGCONT);
	}
	return status;
}

/* What the module shows; its file stays open. */
static size_t read_dump(char *text, size_t room, int *file)
{
	size_t bytes = 0;
	ssize_t more;

	*file = open("/proc/page_tables", O_RDONLY | O_CLOEXEC);
	while ((more = read(*file, text + bytes, room - bytes)) > 0)
		bytes += (size_t)more;
	return bytes;
}

/* The kernel's dump of the tables of a process, again and again, until it is the same after it was written as before: the kernel changes
 * its own half, as when it frees what a module needed to begin. */
static void dump(pid_t process)
{
	static char texts[2][ROOM], parameter[32];
	int module = open(MODULE, O_RDONLY | O_CLOEXEC), file;
	size_t written = 0, bytes;
	FILE *line = fopen(LINE, "w");

	snprintf(parameter, sizeof parameter, "process=%d", (int)process);
	if (!line || syscall(SYS_finit_module, module, parameter, 0)) {
		printf("WRONG no " LINE " or no module\n");
		exit(1);
	}
	for (unsigned tries = 0; tries < TRIES; tries++) {
		bytes = read_dump(texts[0], ROOM, &file);
		if (bytes == written && !memcmp(texts[0], texts[1], bytes))
			return;
		close(file);
		fprintf(line, "dumped\n");
		fwrite(texts[0], 1, bytes, line);
		fflush(line);
		tcdrain(fileno(line));
		memcpy(texts[1], texts[0], bytes);
		written = bytes;
	}
	printf("WRONG the kernel's tables don't stay as they are\n");
}

void dump_at_stop(pid_t child)
{
	int status;

	if (waitpid(child, &status, WUNTRACED) != child || !WIFSTOPPED(status)) {
		printf("WRONG the child has ended\n");
		exit(1);
	}
	tell(child);
	dump(child);
	printf("DONE, %d wrong\n", wrong);
	if (!ioperm(POWER, 1, 1))
		outb(0, POWER);
}
