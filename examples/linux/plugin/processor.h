/* Which processor runs. If one thread of the host runs all, QEMU from 9.0 on says to a callback which one translated the code; which one
 * runs it is then asked of its registers. */
#ifndef PROCESSOR_H
#define PROCESSOR_H

#include "qemu_plugin.h"

#if PLUGIN_VERSION >= 2
#define PROCESSOR_FLAGS QEMU_PLUGIN_CB_R_REGS
#else
#define PROCESSOR_FLAGS QEMU_PLUGIN_CB_NO_REGS
#endif

void processor_begin(qemu_plugin_id_t id);

/* The processor that runs; `cpu` is what QEMU says. */
unsigned processor_that_runs(unsigned cpu);

#endif
