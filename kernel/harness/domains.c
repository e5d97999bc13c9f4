// SPDX-License-Identifier: GPL-2.0
/*
 * Calls of irqdomain.c alone, without a line of the board: which virq a mapping
 * gets, what a number that is used or too large leads to, and a chip that can't
 * mask. The answers are remarks beside the log.
 */
#include "harness.h"

static int plain_map(struct irq_domain *domain, unsigned int virq, irq_hw_number_t number)
{
	irq_set_chip_and_handler(virq, &dummy_irq_chip, handle_level_irq);
	return 0;
}

static const struct irq_domain_ops plain_ops = { .map = plain_map };

static struct irq_chip no_mask_chip = { .name = "nomask" };

static int no_mask_alloc(struct irq_domain *domain, unsigned int virq, unsigned int count,
			 void *arg)
{
	irq_domain_set_info(domain, virq, (unsigned long)arg, &no_mask_chip, NULL, handle_level_irq,
			    NULL, NULL);
	return 0;
}

static const struct irq_domain_ops no_mask_ops = {
	.alloc = no_mask_alloc,
	.free = irq_domain_free_irqs_common,
};

static int handler_runs;

static irqreturn_t count_run(int virq, void *cookie)
{
	handler_runs++;
	return IRQ_HANDLED;
}

static struct irq_domain *linear(const char *name, unsigned int size)
{
	return irq_domain_create_linear(irq_domain_alloc_named_fwnode(name), size, &plain_ops, NULL);
}

static struct irq_domain *tree(const char *name)
{
	return irq_domain_create_tree(irq_domain_alloc_named_fwnode(name), &plain_ops, NULL);
}

static int lowest_free(void)
{
	int virq = irq_alloc_desc(NUMA_NO_NODE);

	irq_free_desc(virq);
	return virq;
}

static void call_mapping(struct irq_domain *domain, const char *name, unsigned long number)
{
	int lowest = lowest_free(), mapped = irq_find_mapping(domain, number);
	int virq = irq_create_mapping(domain, number);

	emit("# irq_create_mapping(%s, %s): %s", name,
	     number > 8 ? "a number" : number == 8 ? "8" : "2",
	     !virq ? "0" :
	     virq == mapped ? "the virq that is mapped" :
	     virq == number % nr_irqs ? "the virq of the hint, number % nr_irqs" :
	     virq == lowest ? "the lowest free virq" : "another virq");
}

static void call_association(struct irq_domain *domain, const char *name, unsigned long number)
{
	int virq = irq_alloc_desc(NUMA_NO_NODE), ret = irq_domain_associate(domain, virq, number);

	emit("# irq_domain_associate(%s, a fresh virq, a mapped number) = %d", name, ret);
	emit("#   then irq_find_mapping gives %s", irq_find_mapping(domain, number) == virq ?
	     "the fresh virq" : "the virq that was mapped");
}

static void call_no_mask(void)
{
	struct fwnode_handle *node = irq_domain_alloc_named_fwnode("nomask");
	struct irq_domain *domain;
	int virq;

	domain = irq_domain_create_hierarchy(NULL, 0, 4, node, &no_mask_ops, NULL);
	virq = irq_domain_alloc_irqs(domain, 1, NUMA_NO_NODE, (void *)9);
	emit("# irq_domain_alloc_irqs(linear 4, 9) is %s", virq > 0 ? "a virq" : "refused");
	emit("#   then irq_find_mapping gives %s",
	     irq_find_mapping(domain, 9) == virq ? "that virq" : "none");
	emit("# request_threaded_irq on a chip without irq_mask = %d",
	     request_threaded_irq(virq, count_run, NULL, 0, "nomask", &handler_runs));
	disable_irq(virq);
	local_irq_disable();
	generic_handle_domain_irq(domain, 9);
	local_irq_enable();
	emit("#   disabled, then an interrupt: %d runs, IRQD_IRQ_MASKED %d, IRQS_PENDING %d",
	     handler_runs, irqd_irq_masked(irq_get_irq_data(virq)),
	     !!(irq_to_desc(virq)->istate & IRQS_PENDING));
}

void call_domains(void)
{
	struct irq_domain *lin = linear("linear8", 8), *high = tree("tree");
	unsigned long number = 1000UL * nr_irqs + lowest_free() + 5;

	call_mapping(lin, "linear 8", 2);
	call_mapping(lin, "linear 8", 2);
	call_mapping(lin, "linear 8", 8);
	call_mapping(high, "tree", number);
	harness_floor = false;
	call_mapping(high, "tree, an architecture without a floor", number + 1);
	harness_floor = true;
	call_association(lin, "linear 8", 2);
	call_association(high, "tree", number);
	call_no_mask();
}
