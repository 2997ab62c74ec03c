#include "others.h"

#include <ctype.h>
#include <dirent.h>
#include <signal.h>
#include <stdio.h>
#include <stdlib.h>
#include <string.h>
#include <unistd.h>

#define KERNEL_THREADS 2 /* the process whose children they are */

/* Whether a thread of that process may still be in the kernel for itself. */
static int may_run(const char *process, const char *thread)
{
	char path[600], line[512];
	const char *behind = NULL;
	FILE *file;
	char state;
	int parent;

	snprintf(path, sizeof path, "/proc/%.200s/task/%.200s/stat", process, thread);
	file = fopen(path, "r");
	if (file && fgets(line, sizeof line, file))
		behind = strrchr(line, ')');
	if (file)
		fclose(file);
	if (!behind || sscanf(behind, ") %c %d", &state, &parent) != 2)
		return 0;
	return parent != 0 && parent != KERNEL_THREADS && !strchr("TtZX", state);
}

static int threads_that_run(const char *process)
{
	struct dirent *entry;
	char path[300];
	int count = 0;
	DIR *folder;

	snprintf(path, sizeof path, "/proc/%.200s/task", process);
	folder = opendir(path);
	while (folder && (entry = readdir(folder)))
		if (isdigit((unsigned char)entry->d_name[0]))
			count += may_run(process, entry->d_name);
	if (folder)
		closedir(folder);
	return count;
}

static int others_that_run(void)
{
	DIR *folder = opendir("/proc");
	struct dirent *entry;
	int count = 0;

	while (folder && (entry = readdir(folder)))
		if (isdigit((unsigned char)entry->d_name[0]) && atoi(entry->d_name) != getpid())
			count += threads_that_run(entry->d_name);
	if (folder)
		closedir(folder);
	return count;
}

void stop_others(void)
{
	kill(-1, SIGSTOP);
	while (others_that_run())
		usleep(10000);
}

void let_others_run(void)
{
	kill(-1, SIGCONT);
}
