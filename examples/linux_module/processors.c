#include "processors.h"

#include <linux/cpu.h>
#include <linux/delay.h>
#include <linux/kthread.h>
#include <linux/percpu.h>
#include <linux/prandom.h>
#include <linux/string.h>
#include <linux/tracepoint.h>
#include <linux/uaccess.h>
#include <asm/asm.h>
#include <asm/extable.h>
#include <asm/special_insns.h>

#include "slots.h"
#include "space.h"

enum { TOGETHER = 16, BATCH = 4096, LONGEST = 300 /* seconds */ };

static struct task_struct *threads[NR_CPUS];
static unsigned thread_count;
static atomic_t parked = ATOMIC_INIT(0);
static bool is_held;

/* ---- one access ---- */

static struct tracepoint *point;
static DEFINE_PER_CPU(unsigned long, fault_code);

static void note_fault(void *data, unsigned long address, struct pt_regs *regs, unsigned long code)
{
	__this_cpu_write(fault_code, code);
}

static void look_at(struct tracepoint *each, void *unused)
{
	if (!strcmp(each->name, "page_fault_kernel"))
		point = each;
}

int faults_begin(void)
{
	for_each_kernel_tracepoint(look_at, NULL);
	return point ? tracepoint_probe_register(point, note_fault, NULL) : -ENOENT;
}

void faults_end(void)
{
	tracepoint_probe_unregister(point, note_fault, NULL);
	tracepoint_synchronize_unregister();
}

unsigned long processor_read(const uint64_t *at, uint64_t *word)
{
	unsigned char is_done = 0;
	asm volatile("1: mov (%2), %1\n mov $1, %b0\n2:" _ASM_EXTABLE(1b, 2b) : "+q"(is_done), "=&r"(*word) : "r"(at) : "memory");
	return is_done ? 0 : 1 + __this_cpu_read(fault_code);
}

unsigned long processor_write(uint64_t *at, uint64_t word)
{
	unsigned char is_done = 0;
	asm volatile("1: mov %1, (%2)\n mov $1, %b0\n2:" _ASM_EXTABLE(1b, 2b) : "+q"(is_done) : "r"(word), "r"(at) : "memory");
	return is_done ? 0 : 1 + __this_cpu_read(fault_code);
}

/* ---- a thread ---- */

/* The window in which shootdowns come, and in which a processor is held. Whoever interrupts may load other tables. */
static void open_window(void)
{
	local_irq_enable();
	cpu_relax();
	if (READ_ONCE(is_held)) {
		atomic_inc(&parked);
		while (READ_ONCE(is_held))
			cpu_relax();
		atomic_dec(&parked);
	}
	local_irq_disable();
	if (!space_is_loaded())
		space_load();
}

static int access_pages(void *data)
{
	const unsigned processor = (unsigned)(unsigned long)data;
	struct rnd_state random;
	prandom_seed_state(&random, 77 * processor + 1);
	while (!kthread_should_stop()) {
		unsigned long own;
		preempt_disable();
		pagefault_disable();
		local_irq_disable();
		own = __read_cr3();
		space_load();
		for (unsigned i = 0; i < BATCH; i++) {
			slots_access(processor, &random);
			if (i % TOGETHER == TOGETHER - 1)
				open_window();
		}
		space_load_word(own);
		local_irq_enable();
		pagefault_enable();
		preempt_enable();
		cond_resched();
	}
	return 0;
}

/* ---- all threads ---- */

unsigned processors_begin(void)
{
	unsigned cpu;
	thread_count = 0;
	for_each_online_cpu(cpu) {
		threads[cpu] = NULL;
		if (cpu == raw_smp_processor_id())
			continue;
		threads[cpu] = kthread_create_on_cpu(access_pages, (void *)(unsigned long)cpu, cpu, "nrvs_space/%u");
		if (IS_ERR(threads[cpu])) {
			threads[cpu] = NULL;
			continue;
		}
		thread_count++;
		wake_up_process(threads[cpu]);
	}
	return thread_count;
}

void processors_end(void)
{
	unsigned cpu;
	for_each_online_cpu(cpu)
		if (threads[cpu])
			kthread_stop(threads[cpu]);
	thread_count = 0;
}

void processors_hold(void)
{
	const unsigned long end = jiffies + LONGEST * HZ;
	WRITE_ONCE(is_held, true);
	while (atomic_read(&parked) < thread_count) {
		if (time_after(jiffies, end))
			panic("nrvs_space: a processor has made no access for some minutes");
		cond_resched();
	}
}

void processors_release(void)
{
	WRITE_ONCE(is_held, false);
	while (atomic_read(&parked) > 0)
		cpu_relax();
}

void processors_go_on(unsigned long accesses)
{
	const unsigned long until = slots_counts().accesses + accesses, end = jiffies + 60 * HZ;
	processors_release();
	while (thread_count && slots_counts().accesses < until && time_before(jiffies, end))
		cond_resched();
}
