/* What an instruction is, by its bytes. */
#ifndef INSTRUCTIONS_H
#define INSTRUCTIONS_H

#include "qemu_plugin.h"

/* A return from the function between these addresses, or a jump out of it: to the kernel's place of returns, or to another function that
 * returns for this one. */
int instructions_is_return(const struct qemu_plugin_insn *instruction, uint64_t begin, uint64_t end);

/* A call by a distance, or by a register or memory. */
int instructions_is_call(const struct qemu_plugin_insn *instruction);

/* The nop by which the guest asks the plugin to follow code: its operand is used by nobody. */
int instructions_is_asking(const struct qemu_plugin_insn *instruction);

#endif
