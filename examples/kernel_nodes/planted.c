/* Mistakes in what a machine asks for: the linker puts this in the place of nrvs_node_told, where one of them is built in. */
#include "nodes.h"
#include "nrvs_nodes.h"
#include "plant.h"

uint32_t __real_nrvs_node_told(struct nrvs_node *node, uint64_t value);
uint32_t __wrap_nrvs_node_told(struct nrvs_node *node, uint64_t value);

uint32_t __wrap_nrvs_node_told(struct nrvs_node *node, uint64_t value)
{
	const uint32_t code = __real_nrvs_node_told(node, value);
	struct nrvs_node_asked *asked = &node->asked;
	const int is_entry = asked->word == NRVS_WORD_FIRST || asked->word == NRVS_WORD_SECOND;
	if (is_planted(PLANT_RING) && is_entry)
		asked->index %= NRVS_NODE_RING - 1;
	if (is_planted(PLANT_LINK) && asked->word == NRVS_WORD_SECOND && code == NRVS_NODE_STORE)
		asked->value = asked->value / 128 * 128 + (asked->value + 1) % 128 % nodes_count();
	return code;
}
