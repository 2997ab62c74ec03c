#include "instructions.h"

#include <string.h>

#define CODE_BYTES 8

struct bytes {
	uint8_t at[CODE_BYTES];
};

static struct bytes code_of(const struct qemu_plugin_insn *instruction)
{
	struct bytes code = { { 0 } };
#if PLUGIN_VERSION >= 3
	qemu_plugin_insn_data(instruction, code.at, CODE_BYTES);
#else
	size_t size = qemu_plugin_insn_size(instruction);

	memcpy(code.at, qemu_plugin_insn_data(instruction), size < CODE_BYTES ? size : CODE_BYTES);
#endif
	return code;
}

int instructions_is_return(const struct qemu_plugin_insn *instruction, uint64_t begin, uint64_t end)
{
	struct bytes code = code_of(instruction);
	int32_t distance;

	if (code.at[0] != 0xe9)
		return code.at[0] == 0xc3;
	memcpy(&distance, code.at + 1, sizeof distance);
	return qemu_plugin_insn_vaddr(instruction) + 5 + (uint64_t)(int64_t)distance - begin >= end - begin;
}

int instructions_is_call(const struct qemu_plugin_insn *instruction)
{
	struct bytes code = code_of(instruction);

	return code.at[0] == 0xe8 || (code.at[0] == 0xff && (code.at[1] >> 3 & 7) == 2);
}

int instructions_is_asking(const struct qemu_plugin_insn *instruction)
{
	static const uint8_t asking[CODE_BYTES] = { 0x0f, 0x1f, 0x84, 0x00, 0x4e, 0x52, 0x56, 0x53 };
	struct bytes code = code_of(instruction);

	return qemu_plugin_insn_size(instruction) == sizeof asking && !memcmp(code.at, asking, sizeof asking);
}
