/*
 * A module for the guest's kernel that shows the kernel's own dump of a process's page tables as /proc/page_tables: its code is in Debian's
 * kernel, and no file shows it there (CONFIG_PTDUMP_DEBUGFS isn't set). The first line is `root FRAME`, in hexadecimal.
 */
#include <linux/io.h>
#include <linux/module.h>
#include <linux/pid.h>
#include <linux/proc_fs.h>
#include <linux/sched/mm.h>
#include <linux/seq_file.h>

static int process;
module_param(process, int, 0);

/* Declared nowhere outside of arch/x86/mm, and exported. */
void ptdump_walk_pgd_level_debugfs(struct seq_file *file, struct mm_struct *space, bool user);

static int show(struct seq_file *file, void *unused)
{
	struct task_struct *task = get_pid_task(find_vpid(process), PIDTYPE_PID);
	struct mm_struct *space = task ? get_task_mm(task) : NULL;

	if (space) {
		seq_printf(file, "root %lx\n", __pa(space->pgd) >> PAGE_SHIFT);
		ptdump_walk_pgd_level_debugfs(file, space, false);
		mmput(space);
	}
	if (task)
		put_task_struct(task);
	return space ? 0 : -ESRCH;
}

static int __init begin(void)
{
	return proc_create_single("page_tables", 0400, NULL, show) ? 0 : -ENOMEM;
}

static void __exit end(void)
{
	remove_proc_entry("page_tables", NULL);
}

module_init(begin);
module_exit(end);
MODULE_LICENSE("Dual MIT/GPL");
