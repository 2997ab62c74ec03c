/* The header's calls as Linux compiles them, over its own atomics; it is compiled, and not loaded. */
#include <linux/module.h>

#include "nrvs_nodes.h"

static struct nrvs_log_words words;
static struct nrvs_node_words shared[2];
static struct nrvs_node node;
uint32_t calls(const struct nrvs_node_update *update);

static struct nrvs_node_reply apply(void *context, const struct nrvs_node_update *entry)
{
	struct nrvs_node_reply reply = { entry->first, entry->second };

	return reply;
}

static void lags(void *context, uint64_t other)
{
}

uint32_t calls(const struct nrvs_node_update *update)
{
	uint32_t code = nrvs_node_update(&node, update, 1);

	if (code < NRVS_NODE_REFUSED)
		code = nrvs_node_run(&node, &words, shared, apply, lags, NULL);
	if (code == NRVS_NODE_DONE)
		code = nrvs_read_ready(&node, nrvs_read_begin(&words), &words, shared, apply, lags, NULL);
	return nrvs_nodes_done(shared, 2, 0) ? 0 : code;
}
