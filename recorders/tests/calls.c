/*
 * Makes the calls on the recorder that standard input lists, a line each, and prints what each returned; calls.rs does the
 * same with the Rust recorder. tests/recorders compares what they print and what they write.
 *
 *     begin LEVELS REPLICAS THREADS TABLES EVENTS PLACES FRAMES
 *     chain LEVELS REPLICAS THREADS TABLES EVENTS PLACES FRAMES     begins a chain
 *     spare LEVELS REPLICAS THREADS TABLES EVENTS PLACES FRAMES     begins another one, of other memory
 *     start ROOT
 *     next                          the next segment, in the memory of the spare one; the two change places
 *     restart                       the next segment, in the same memory
 *     swap                          the two change places: what comes next is said of the spare one
 *     events                        how many there are; as a call's number is printed
 *     call REPLICA THREAD KIND SIZE RIGHTS ADDRESS PHYS
 *     place PLACE CALL
 *     reply CALL AT CODE SIZE RIGHTS VALUE
 *     word FRAME INDEX VALUE        a word of the memory; its frame is there from now on
 *     broken FRAME                  the memory fails at this frame
 *     dump REPLICA APPLIED ROOT
 *     dump_frame REPLICA FRAME
 *     finish LIMIT                  writes the trace, or the segment behind the ones written; the writer fails where it would pass
 *                                   that many bytes
 */
#include "../nrvs_trace.h"

#include <inttypes.h>
#include <stdio.h>
#include <stdlib.h>
#include <string.h>

enum { FRAMES = 5000, GUARD = 64 };

static struct { uint64_t number, words[512]; int broken; } memory[FRAMES];
static unsigned memory_count;

static unsigned frame_of(uint64_t number)
{
	unsigned k = 0;

	while (k < memory_count && memory[k].number != number)
		k++;
	return k;
}

static unsigned make_frame(uint64_t number)
{
	unsigned k = frame_of(number);

	if (k == memory_count) {
		if (memory_count == FRAMES)
			exit(2);
		memory[memory_count++].number = number;
	}
	return k;
}

static int lend(void *context, uint64_t number, const uint64_t **words)
{
	unsigned k = frame_of(number);

	(void)context;
	*words = k < memory_count ? memory[k].words : NULL;
	return k < memory_count && memory[k].broken;
}

/* A buffer of the caller's with a guard on both sides, so that a write past it is seen. */
struct guarded { unsigned char *all; size_t size; };

static void *make_guarded(struct guarded *buffer, size_t size)
{
	free(buffer->all);
	buffer->all = (unsigned char *)malloc(size + 2 * GUARD);
	if (!buffer->all)
		exit(2);
	buffer->size = size;
	memset(buffer->all, 0xa5, size + 2 * GUARD);
	return buffer->all + GUARD;
}

static int is_whole(const struct guarded *buffer)
{
	for (size_t k = 0; buffer->all && k < GUARD; k++)
		if (buffer->all[k] != 0xa5 || buffer->all[GUARD + buffer->size + k] != 0xa5)
			return 0;
	return 1;
}

struct writer { FILE *file; uint64_t left; };

static int write_some(void *context, const uint8_t *bytes, uint32_t length)
{
	struct writer *writer = (struct writer *)context;

	if (length < 1 || length > 512 || length > writer->left)
		return 1;
	writer->left -= length;
	return fwrite(bytes, 1, length, writer->file) != length;
}

/* Two, so that one can be written while the other is recorded. */
static struct recorder {
	nrvs_trace trace;
	struct guarded events, places, frames;
	int is_begun;
} recorders[2];
static unsigned current;

static nrvs_status begin(struct recorder *it, const uint64_t *n, int is_chain)
{
	nrvs_config config;
	nrvs_status status;

	config.levels = (uint8_t)n[0];
	config.replicas = (uint8_t)n[1];
	config.threads = (uint16_t)n[2];
	config.tables = (uint16_t)n[3];
	config.event_room = (uint32_t)n[4];
	config.log_room = (uint32_t)n[5];
	config.frame_room = (uint32_t)n[6];
	config.events = (uint64_t (*)[3])make_guarded(&it->events, 24 * (size_t)n[4]);
	config.log = (nrvs_atomic *)make_guarded(&it->places, sizeof(nrvs_atomic) * (size_t)n[5]);
	config.frames = (nrvs_frame *)make_guarded(&it->frames, sizeof(nrvs_frame) * (size_t)n[6]);
	status = is_chain ? nrvs_begin_chain(&it->trace, &config) : nrvs_begin(&it->trace, &config);
	it->is_begun |= status == NRVS_OK;
	return status;
}

static nrvs_status finish(nrvs_trace *trace, uint64_t limit, const char *path)
{
	struct writer writer = { fopen(path, trace->is_segment ? "ab" : "wb"), limit };
	nrvs_status status;

	if (!writer.file)
		exit(2);
	status = nrvs_finish(trace, write_some, &writer);
	fclose(writer.file);
	return status;
}

static nrvs_status next(struct recorder *from, struct recorder *to)
{
	nrvs_status status = to->is_begun ? nrvs_next(&from->trace, &to->trace) : NRVS_BAD_CHAIN;

	if (status == NRVS_OK)
		current = (unsigned)(to - recorders);
	return status;
}

static nrvs_status run(const char *word, const uint64_t *n, const char *path, uint32_t *call)
{
	struct recorder *it = &recorders[current], *spare = &recorders[1 - current];
	nrvs_trace *trace = &it->trace;

	if (!strcmp(word, "begin") || !strcmp(word, "chain"))
		return begin(it, n, *word == 'c');
	if (!strcmp(word, "spare"))
		return begin(spare, n, 1);
	if (!strcmp(word, "start"))
		return nrvs_start(trace, n[0], lend, NULL);
	if (!strcmp(word, "next"))
		return next(it, spare);
	if (!strcmp(word, "restart"))
		return next(it, it);
	if (!strcmp(word, "call")) {
		nrvs_request request = { (uint8_t)n[2], (uint8_t)n[3], (uint8_t)n[4], n[5], n[6] };

		return nrvs_call(trace, (unsigned)n[0], (unsigned)n[1], request, call);
	}
	if (!strcmp(word, "place"))
		return nrvs_place(trace, (uint32_t)n[0], (uint32_t)n[1]);
	if (!strcmp(word, "reply")) {
		nrvs_answer answer = { (uint8_t)n[2], (uint8_t)n[3], (uint8_t)n[4], n[5] };

		return nrvs_reply(trace, (uint32_t)n[0], (uint32_t)n[1], answer);
	}
	if (!strcmp(word, "dump"))
		return nrvs_dump(trace, (unsigned)n[0], (uint32_t)n[1], n[2], lend, NULL);
	if (!strcmp(word, "dump_frame"))
		return nrvs_dump_frame(trace, (unsigned)n[0], n[1], lend, NULL);
	if (!strcmp(word, "finish"))
		return finish(trace, n[0], path);
	if (!strcmp(word, "swap"))
		current = 1 - current;
	else if (!strcmp(word, "events"))
		*call = nrvs_events(trace);
	else if (!strcmp(word, "word"))
		memory[make_frame(n[0])].words[n[1] % 512] = n[2];
	else if (!strcmp(word, "broken"))
		memory[make_frame(n[0])].broken = 1;
	else
		exit(2);
	return NRVS_OK;
}

int main(int count, char **arguments)
{
	char line[256];

	while (count == 2 && fgets(line, sizeof(line), stdin)) {
		uint64_t n[8] = { 0 };
		uint32_t call = NRVS_NONE;
		unsigned k = 0;
		char *word = strtok(line, " \n"), *number;
		nrvs_status status;

		while (word && k < 8 && (number = strtok(NULL, " \n")))
			n[k++] = strtoull(number, NULL, 0);
		if (!word)
			continue;
		status = run(word, n, arguments[1], &call);
		if (call != NRVS_NONE)
			printf("%s: %s %" PRIu32 "\n", word, nrvs_status_text(status), call);
		else
			printf("%s: %s\n", word, nrvs_status_text(status));
		for (unsigned r = 0; r < 2; r++)
			if (!is_whole(&recorders[r].events) || !is_whole(&recorders[r].places) || !is_whole(&recorders[r].frames))
				printf("written past a buffer\n");
	}
	return 0;
}
