/* What the firmware says of the machine's memory nodes, in ACPI's table SRAT. */
#ifndef FIRMWARE_H
#define FIRMWARE_H

#include "processors.h"

enum { MOST_NODES = 4 };

/* The largest stretch of a node's memory, in bytes. */
struct memory {
	uint64_t first, length;
};

struct firmware {
	unsigned nodes;
	struct memory memories[MOST_NODES];
	unsigned node_of[PROCESSORS]; /* of each processor */
};

/* Reads it, from where ACPI's tables begin. If it isn't there, or has too much, all stops. */
void firmware_read(struct firmware *firmware, const void *tables);

#endif
