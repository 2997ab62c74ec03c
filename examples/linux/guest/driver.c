#define _GNU_SOURCE
#include "driver.h"

#include "parts.h"

#include <errno.h>
#include <fcntl.h>
#include <pthread.h>
#include <stdio.h>
#include <string.h>
#include <sys/ioctl.h>
#include <unistd.h>

#define DRIVER "/dev/nrvs_driver"
#define PAGES 8
#define MOVE 2
#define TABLE (512 * PAGE) /* what one table translates */
#define FAILING ((off_t)1 << 32) /* where the driver's file is mapped at once, and fails */

static struct {
	int file;
	volatile int goes, is_over;
} driver;

static void *has_them_taken_back(void *unused)
{
	(void)unused;
	stay_on(1);
	while (!driver.is_over) {
		while (!driver.goes && !driver.is_over)
			;
		driver.goes = 0;
		ioctl(driver.file, 0, 0);
	}
	return NULL;
}

static int opened(void)
{
	driver.file = open(DRIVER, O_RDWR | O_CLOEXEC);
	if (driver.file >= 0)
		return 1;
	printf("WRONG no %s: %s\n", DRIVER, strerror(errno));
	wrong++;
	return 0;
}

void unmap_drivers_pages(void)
{
	pthread_t other;

	if (!opened())
		return;
	stay_on(0);
	driver.is_over = 0;
	pthread_create(&other, NULL, has_them_taken_back, NULL);
	for (unsigned round = 0; round < rounds; round++) {
		char *at = map_at(0x138000000, PAGES * PAGE, READ_WRITE, MAP_SHARED, driver.file);

		touch(at, PAGES * PAGE);
		driver.goes = 1;
		munmap(at, PAGES * PAGE);
		usleep(1000);
	}
	driver.is_over = 1;
	pthread_join(other, NULL);
	close(driver.file);
	stay_on(-1);
}

static void let_free_from(uint64_t offset)
{
	if (!opened())
		return;
	for (unsigned round = 0; round < rounds; round++) {
		char *at = mmap((void *)0x139000000, PAGES * PAGE, READ_WRITE, MAP_SHARED | MAP_FIXED, driver.file, (off_t)offset);

		if (at == MAP_FAILED) {
			printf("WRONG mmap: %s\n", strerror(errno));
			wrong++;
			return;
		}
		touch(at, PAGES * PAGE);
		ioctl(driver.file, offset != 0, offset);
		touch(at, PAGES * PAGE);
		munmap(at, PAGES * PAGE);
	}
	close(driver.file);
}

void let_driver_free_pages(void)
{
	let_free_from(0);
}

void let_driver_free_high_pages(void)
{
	let_free_from((uint64_t)1 << 63);
}

static void *drops_them(void *at)
{
	stay_on(1);
	while (!driver.is_over) {
		touch(at, PAGES * PAGE);
		madvise(at, PAGES * PAGE, MADV_DONTNEED);
		look(at, PAGES * PAGE);
	}
	return NULL;
}

void let_driver_move_pages(void)
{
	char *at = map_at(0x13c000000, PAGES * PAGE, READ_WRITE, MAP_SHARED | MAP_ANONYMOUS, -1);
	pthread_t other;

	if (!opened())
		return;
	stay_on(0);
	driver.is_over = 0;
	pthread_create(&other, NULL, drops_them, at);
	for (unsigned round = 0; round < rounds; round++) {
		usleep(1000);
		if (ioctl(driver.file, MOVE, at))
			wrong++, printf("WRONG the driver doesn't move pages: %s\n", strerror(errno));
	}
	driver.is_over = 1;
	pthread_join(other, NULL);
	close(driver.file);
	munmap(at, PAGES * PAGE);
	stay_on(-1);
}

/* The first half has a table already, which a page below it needs; for the second half there is none, and the driver gets none. */
void let_driver_fail(void)
{
	uint64_t half = PAGES / 2 * PAGE;

	if (!opened())
		return;
	for (unsigned round = 0; round < rounds; round++) {
		uint64_t end = 0x13a000000 + (uint64_t)round * 4 * TABLE + TABLE;
		char *below = map_at(end - half - PAGE, PAGE, READ_WRITE, PRIVATE, -1), *at;

		touch(below, PAGE);
		at = mmap((char *)end - half, PAGES * PAGE, READ_WRITE, MAP_SHARED | MAP_FIXED_NOREPLACE, driver.file, FAILING);
		if (at != MAP_FAILED || errno != ENOMEM)
			wrong++, printf("WRONG the driver doesn't fail: %s\n", at == MAP_FAILED ? strerror(errno) : "it maps its pages");
		munmap(below, PAGE);
	}
	close(driver.file);
}
