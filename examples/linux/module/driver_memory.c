/*
 * A module for the guest's kernel: a driver that gives processes pages of its own, which aren't the kernel's to count (VM_PFNMAP). Its file is
 * /dev/nrvs_driver, in which they are again and again. An ioctl takes them back: the driver unmaps them from whoever maps them, and frees
 * them; with 1 it looks for maps from an offset on alone. From the offset FAILING on the pages of a mapping are mapped at once, but there is
 * no memory for a table: mmap fails behind those for which there is one, and the driver frees all of them. With MOVE the pages that a process
 * has from an address on are moved to other frames, as drivers do of devices that have memory.
 */
#include <linux/fs.h>
#include <linux/highmem.h>
#include <linux/kprobes.h>
#include <linux/migrate.h>
#include <linux/miscdevice.h>
#include <linux/mm.h>
#include <linux/module.h>
#include <linux/mutex.h>
#include <linux/version.h>

#define PAGES 8
#define MOVE 2
#define FAILING (1ul << (32 - PAGE_SHIFT)) /* in pages */

static struct page *pages[PAGES];
static DEFINE_MUTEX(lock); /* while it is held, no page is given or taken back */

/* A page is given where a process accesses it: by then unmap_mapping_range finds the mapping. */
static vm_fault_t give(struct vm_fault *fault)
{
	struct page **page = &pages[fault->pgoff % PAGES];
	vm_fault_t done = VM_FAULT_SIGBUS;

	mutex_lock(&lock);
	if (!*page)
		*page = alloc_page(GFP_HIGHUSER | __GFP_ZERO);
	if (*page)
		done = vmf_insert_pfn(fault->vma, fault->address, page_to_pfn(*page));
	mutex_unlock(&lock);
	return done;
}

static const struct vm_operations_struct mapping = { .fault = give };

static struct task_struct *failing;

static int is_of_others(struct kretprobe_instance *probe, struct pt_regs *registers)
{
	return current != failing;
}

static int fail(struct kretprobe_instance *probe, struct pt_regs *registers)
{
	regs_set_return_value(registers, -ENOMEM);
	return 0;
}

static int map_at_once(struct vm_area_struct *area)
{
	struct kretprobe no_table = { .kp.symbol_name = "__pte_alloc", .entry_handler = is_of_others, .handler = fail };
	unsigned long bytes = area->vm_end - area->vm_start;
	unsigned int order = get_order(bytes);
	struct page *first = alloc_pages(GFP_HIGHUSER | __GFP_ZERO, order);
	int error = first ? register_kretprobe(&no_table) : -EAGAIN;

	if (error)
		return error;
	split_page(first, order);
	failing = current;
	error = remap_pfn_range(area, area->vm_start, page_to_pfn(first), bytes, area->vm_page_prot);
	failing = NULL;
	unregister_kretprobe(&no_table);
	if (error)
		for (unsigned int k = 0; k < 1u << order; k++)
			__free_page(first + k);
	return error;
}

static int map(struct file *file, struct vm_area_struct *area)
{
	const unsigned long flags = VM_PFNMAP | VM_DONTEXPAND | VM_DONTDUMP;

	if (!(area->vm_flags & VM_SHARED))
		return -EINVAL;
	if (area->vm_pgoff == FAILING)
		return map_at_once(area);
#if LINUX_VERSION_CODE >= KERNEL_VERSION(6, 3, 0)
	vm_flags_set(area, flags);
#else
	area->vm_flags |= flags;
#endif
	area->vm_ops = &mapping;
	return 0;
}

static long take_back(struct file *file, unsigned int is_part, unsigned long offset)
{
	mutex_lock(&lock);
	unmap_mapping_range(file->f_mapping, offset, is_part ? PAGES * PAGE_SIZE : 0, 1);
	for (int k = 0; k < PAGES; k++) {
		if (pages[k])
			__free_page(pages[k]);
		pages[k] = NULL;
	}
	mutex_unlock(&lock);
	return 0;
}

static void copy(struct migrate_vma *range)
{
	struct page *to;

	for (unsigned long k = 0; k < range->npages; k++) {
		to = range->src[k] & MIGRATE_PFN_MIGRATE ? alloc_page(GFP_HIGHUSER) : NULL;
		if (!to)
			continue;
		lock_page(to);
		copy_highpage(to, migrate_pfn_to_page(range->src[k]));
		range->dst[k] = migrate_pfn(page_to_pfn(to));
	}
}

static long move(unsigned long begin)
{
	unsigned long from[PAGES] = { 0 }, to[PAGES] = { 0 };
	struct migrate_vma range = { .src = from, .dst = to, .start = begin, .end = begin + PAGES * PAGE_SIZE,
		.flags = MIGRATE_VMA_SELECT_SYSTEM };
	int error = -EFAULT;

	mmap_read_lock(current->mm);
	range.vma = vma_lookup(current->mm, begin);
	if (range.vma && range.end <= range.vma->vm_end)
		error = migrate_vma_setup(&range);
	if (!error) {
		copy(&range);
		migrate_vma_pages(&range);
		migrate_vma_finalize(&range);
	}
	mmap_read_unlock(current->mm);
	return error;
}

static long control(struct file *file, unsigned int what, unsigned long where)
{
	return what == MOVE ? move(where) : take_back(file, what, where);
}

static const struct file_operations operations = { .owner = THIS_MODULE, .mmap = map, .unlocked_ioctl = control };
static struct miscdevice device = { .minor = MISC_DYNAMIC_MINOR, .name = "nrvs_driver", .fops = &operations, .mode = 0666 };

module_misc_device(device);
MODULE_LICENSE("Dual MIT/GPL");
