/* Plans a second time, in plain C: the calls of nrvs_plan.h under other names. */
#ifndef REFERENCE_H
#define REFERENCE_H

#include "nrvs_plan.h"

uint32_t reference_map(struct nrvs_plan *plan, const struct nrvs_target *target, uint64_t base, uint32_t size, uint64_t physical,
		       uint32_t rights, uint64_t bits);
uint32_t reference_unmap(struct nrvs_plan *plan, const struct nrvs_target *target, uint64_t base);
uint32_t reference_protect(struct nrvs_plan *plan, const struct nrvs_target *target, uint64_t base, uint32_t rights);
uint32_t reference_ask(struct nrvs_plan *plan, const struct nrvs_target *target, uint64_t address);
uint32_t reference_remap(struct nrvs_plan *plan, const struct nrvs_target *target, uint64_t base, uint64_t physical, uint32_t rights);
uint32_t reference_split(struct nrvs_plan *plan, const struct nrvs_target *target, uint64_t base);
uint32_t reference_join(struct nrvs_plan *plan, const struct nrvs_target *target, uint64_t base);
uint32_t reference_prune(struct nrvs_plan *plan, const struct nrvs_target *target, uint64_t address);
uint32_t reference_unmap_part(struct nrvs_plan *plan, const struct nrvs_target *target, uint64_t base, uint64_t first, uint64_t count);
uint32_t reference_collapse(struct nrvs_plan *plan, const struct nrvs_target *target, uint64_t base, uint64_t physical, uint32_t rights);
uint32_t reference_see(struct nrvs_plan *plan, const uint64_t words[512]);
uint32_t reference_give(struct nrvs_plan *plan, uint64_t frame);
uint32_t reference_give_none(struct nrvs_plan *plan);
uint32_t reference_again(struct nrvs_plan *plan, uint64_t index, uint64_t found);

#endif
