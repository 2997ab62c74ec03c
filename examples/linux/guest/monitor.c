#include "monitor.h"

#include "parts.h"

#include <errno.h>
#include <fcntl.h>
#include <linux/kvm.h>
#include <pthread.h>
#include <sched.h>
#include <signal.h>
#include <stdio.h>
#include <stdlib.h>
#include <string.h>
#include <sys/ioctl.h>
#include <unistd.h>

#define MIB (1024ul * 1024)
#define BYTES (8 * MIB) /* of the machine's memory: small pages below the half, large ones above */
#define HALF (BYTES / 2)
#define LARGE (2 * MIB)
#define RUN (16 * PAGE) /* what one run of the machine accesses */
#define CODE 0x800u
#define PROCESSORS 2
#define ENOUGH 0x700u /* a byte of the machine's memory: 1 where the endless writing ends */
#define COLLAPSE 25 /* MADV_COLLAPSE */

/* In real mode, from DS:0 on, a byte of each of 16 pages: xor %bx,%bx; then incb (%bx), or mov (%bx),%al; add $4096,%bx; jnz; hlt. */
static const uint8_t writing[] = { 0x31, 0xdb, 0xfe, 0x07, 0x81, 0xc3, 0x00, 0x10, 0x75, 0xf8, 0xf4 };
static const uint8_t reading[] = { 0x31, 0xdb, 0x8a, 0x07, 0x81, 0xc3, 0x00, 0x10, 0x75, 0xf8, 0xf4 };
/* As the first, and before hlt: cmpb $0,%cs:ENOUGH; je to its begin. */
static const uint8_t writing_on[] = { 0x31, 0xdb, 0xfe, 0x07, 0x81, 0xc3, 0x00, 0x10, 0x75, 0xf8, 0x2e, 0x80, 0x3e, 0x00, 0x07, 0x00, 0x74,
	0xee, 0xf4 };
/* Reads all, then writes all, and again until it is enough. */
static const uint8_t reading_and_writing_on[] = { 0x31, 0xdb, 0x8a, 0x07, 0x81, 0xc3, 0x00, 0x10, 0x75, 0xf8, 0xfe, 0x07, 0x81, 0xc3, 0x00,
	0x10, 0x75, 0xf8, 0x2e, 0x80, 0x3e, 0x00, 0x07, 0x00, 0x74, 0xe6, 0xf4 };

static struct {
	int file, processors[PROCESSORS];
	struct kvm_run *runs[PROCESSORS];
	struct kvm_userspace_memory_region region;
	char *memory;
} machine;

static int ask(int file, unsigned long request, void *what)
{
	int answer = ioctl(file, request, what);

	if (answer < 0) {
		printf("WRONG kvm, request %#lx: %s\n", request, strerror(errno));
		exit(1);
	}
	return answer;
}

static void add_processor(int kvm, unsigned number)
{
	machine.processors[number] = ask(machine.file, KVM_CREATE_VCPU, (void *)(uintptr_t)number);
	machine.runs[number] = mmap(NULL, (size_t)ask(kvm, KVM_GET_VCPU_MMAP_SIZE, NULL), READ_WRITE, MAP_SHARED, machine.processors[number], 0);
	if (machine.runs[number] == MAP_FAILED)
		exit(1);
}

static void begin_machine(unsigned processors)
{
	int kvm = open("/dev/kvm", O_RDWR | O_CLOEXEC);

	machine.file = ask(kvm, KVM_CREATE_VM, NULL);
	machine.memory = map_at(0x40000000, BYTES, READ_WRITE, PRIVATE, -1);
	madvise(machine.memory, HALF, MADV_NOHUGEPAGE);
	madvise(machine.memory + HALF, HALF, MADV_HUGEPAGE);
	machine.region.memory_size = BYTES;
	machine.region.userspace_addr = (uint64_t)machine.memory;
	ask(machine.file, KVM_SET_USER_MEMORY_REGION, &machine.region);
	for (unsigned number = 0; number < processors; number++)
		add_processor(kvm, number);
}

/* A processor runs from the code on, with so much before the addresses of its pages, until it halts; 1 where it ends otherwise. */
static int run_processor(unsigned number, uint64_t base)
{
	struct kvm_regs registers = { .rip = CODE, .rflags = 2 };
	struct kvm_sregs segments;

	ask(machine.processors[number], KVM_GET_SREGS, &segments);
	segments.cs.base = 0;
	segments.cs.selector = 0;
	segments.ds.base = base;
	ask(machine.processors[number], KVM_SET_SREGS, &segments);
	ask(machine.processors[number], KVM_SET_REGS, &registers);
	ask(machine.processors[number], KVM_RUN, NULL);
	return machine.runs[number]->exit_reason != KVM_EXIT_HLT;
}

static int access_pages(uint64_t base, int is_store)
{
	memcpy(machine.memory + CODE, is_store ? writing : reading, sizeof writing);
	return run_processor(0, base);
}

static void log_writes(void)
{
	machine.region.flags ^= KVM_MEM_LOG_DIRTY_PAGES;
	ask(machine.file, KVM_SET_USER_MEMORY_REGION, &machine.region);
}

static void take_log(void)
{
	static uint64_t pages[BYTES / PAGE / 64];
	struct kvm_dirty_log log = { .dirty_bitmap = pages };

	if (machine.region.flags)
		ask(machine.file, KVM_GET_DIRTY_LOG, &log);
}

static void change_memory(uint64_t base, uint64_t how)
{
	char *at = machine.memory + base;

	if (how < 2)
		madvise(at, RUN, MADV_DONTNEED);
	else if (how < 3)
		log_writes();
	else if (how < 4)
		take_log();
	else if (how < 5)
		madvise(at, RUN, MADV_PAGEOUT);
	else if (how < 6 && base >= HALF)
		madvise(machine.memory + (base & -LARGE), LARGE, COLLAPSE);
}

/* A thread of the monitor runs a processor of the machine, on a processor of its own. */
struct runner {
	unsigned number;
	int others;
	pthread_t thread;
};

static void *run_on(void *of)
{
	struct runner *runner = of;

	stay_on((long)runner->number + 1);
	runner->others = run_processor(runner->number, HALF / 2);
	return NULL;
}

static void begin_runner(struct runner *runner, unsigned number)
{
	runner->number = number;
	runner->others = 1;
	if (pthread_create(&runner->thread, NULL, run_on, runner))
		exit(1);
}

static int end_runner(struct runner *runner)
{
	machine.memory[ENOUGH] = 1;
	pthread_join(runner->thread, NULL);
	return runner->others;
}

int run_logged(unsigned rounds)
{
	struct runner writer;

	stay_on(0);
	begin_machine(1);
	memcpy(machine.memory + CODE, writing_on, sizeof writing_on);
	log_writes();
	begin_runner(&writer, 0);
	for (unsigned round = 0; round < rounds; round++) {
		usleep(1000);
		take_log();
	}
	return end_runner(&writer);
}

int run_pair(uint64_t random, unsigned rounds, int only_logs)
{
	struct runner runners[PROCESSORS];
	int others = 0;

	stay_on(0);
	begin_machine(PROCESSORS);
	memcpy(machine.memory + CODE, reading_and_writing_on, sizeof reading_and_writing_on);
	log_writes();
	for (unsigned number = 0; number < PROCESSORS; number++)
		begin_runner(&runners[number], number);
	while (!*(volatile char *)(machine.memory + HALF / 2)) /* they haven't begun yet */
		usleep(1000);
	for (unsigned round = 0; round < rounds; round++) {
		usleep(5000);
		if (only_logs)
			take_log();
		else
			change_memory(HALF / 2, draw(&random, 5));
	}
	for (unsigned number = 0; number < PROCESSORS; number++)
		others += end_runner(&runners[number]);
	return others;
}

int run_sparse(unsigned rounds, int is_dense)
{
	uint64_t end = is_dense ? MIB : HALF, written = is_dense ? end : 2 * RUN;
	pid_t other;
	int others = 0;

	stay_on(0);
	other = fork();
	if (!other)
		sched_setscheduler(0, SCHED_FIFO, &(struct sched_param){ .sched_priority = 1 });
	while (!other)
		usleep(400);
	begin_machine(1);
	others += access_pages(LARGE, 1); /* the second half of the range has a table of nested pages from here on */
	for (unsigned round = 0; round < rounds; round++) {
		for (uint64_t base = RUN; base < written; base += RUN)
			others += access_pages(base, 1);
		madvise(machine.memory + RUN, end - RUN, MADV_DONTNEED);
	}
	kill(other, SIGKILL);
	return others;
}

int run_monitor(uint64_t random, unsigned rounds)
{
	int others = 0;

	begin_machine(1);
	for (unsigned round = 0; round < rounds; round++) {
		uint64_t base = (1 + draw(&random, BYTES / RUN - 1)) * RUN;

		others += access_pages(base, draw(&random, 2) != 0);
		change_memory(base, draw(&random, 8));
		others += access_pages(base, 0);
		others += access_pages(base, draw(&random, 2) != 0);
	}
	return others;
}
