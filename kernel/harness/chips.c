// SPDX-License-Identifier: GPL-2.0
/*
 * Chips over the cell of a line's signal, and the hierarchies of domains that a
 * board asks for. The chips are ours; domains, descriptors and whatever walks up
 * a hierarchy are the kernel's.
 */
#include "harness.h"

struct board_line *line_of(struct irq_desc *desc)
{
	int i;

	for (i = 0; the_board && i < the_board->line_count; i++)
		if (the_board->lines[i].desc == desc)
			return &the_board->lines[i];
	return NULL;
}

bool has_signal(struct cell *cell)
{
	return cell->edge ? cell->sent : cell->high && !cell->masked && !cell->in_service;
}

static void send(struct board_line *line)
{
	line->cell.sent = true;
	line->cell.sent_to = line->target;
}

void raise_edge(struct board_line *line)
{
	struct cell *cell = &line->cell;

	if (!cell->masked)
		send(line);
	else if (cell->keeps)
		cell->stored = true;
}

void set_high(struct board_line *line)
{
	int i;

	line->cell.high = false;
	for (i = 0; !line->cell.edge && i < the_board->device_count; i++)
		if (the_board->devices[i].line == line && the_board->devices[i].open &&
		    !the_board->devices[i].quiet)
			line->cell.high = true;
}

static struct board_line *chip_line(struct irq_data *data)
{
	return irq_data_get_irq_chip_data(data);
}

static void chip_mask(struct irq_data *data)
{
	struct board_line *line = chip_line(data);
	struct cell *cell = &line->cell;

	emit_trace("chip %d %s mask", line->no, data->chip->name);
	cell->masked = true;
	if (cell->edge && cell->recalls && cell->sent) {
		cell->sent = false;
		cell->stored = true;
	}
}

static void chip_unmask(struct irq_data *data)
{
	struct board_line *line = chip_line(data);
	struct cell *cell = &line->cell;

	emit_trace("chip %d %s unmask", line->no, data->chip->name);
	line->unmasks++;
	cell->masked = false;
	if (cell->edge && cell->stored) {
		cell->stored = false;
		send(line);
	}
}

/* A chip whose interrupts can't move at once moves them in its ack and eoi. */
static void chip_move(struct board_line *line)
{
	int unmasks = line->unmasks;

	if (!has_rule(RULE_MOVE_EACH_TAKE))
		irq_move_irq(&line->desc->irq_data);
	line->unmasks = unmasks;
}

static void chip_ack(struct irq_data *data)
{
	struct board_line *line = chip_line(data);

	chip_move(line);
	emit_trace("chip %d %s ack", line->no, data->chip->name);
	if (line->cell.edge)
		line->cell.sent = false;
}

static void chip_mask_ack(struct irq_data *data)
{
	chip_ack(data);
	chip_mask(data);
}

static void child_ack(struct irq_data *data)
{
	irq_chip_ack_parent(data);
}

static void child_mask_ack(struct irq_data *data)
{
	irq_chip_ack_parent(data);
	chip_mask(data);
}

/*
 * handle_fasteoi_irq() drops what comes during a flow. The rule keeps it in
 * PENDING, and sends it again at the flow's end.
 */
static void resend_fast_eoi(struct board_line *line)
{
	struct irq_desc *desc = line->desc;

	if (irqd_irq_inprogress(&desc->irq_data)) {
		desc->istate |= IRQS_PENDING;
	} else if ((desc->istate & IRQS_PENDING) && !irqd_irq_disabled(&desc->irq_data)) {
		desc->istate &= ~IRQS_PENDING;
		send(line);
		line->sent_again = true;
	}
}

static void chip_eoi(struct irq_data *data)
{
	struct board_line *line = chip_line(data);

	chip_move(line);
	emit_trace("chip %d %s eoi", line->no, data->chip->name);
	line->cell.in_service = false;
	if (line->fast_edges && has_rule(RULE_FAST_EOI_RESEND))
		resend_fast_eoi(line);
}

static int chip_retrigger(struct irq_data *data)
{
	struct board_line *line = chip_line(data);

	emit_trace("chip %d %s retrigger", line->no, data->chip->name);
	send(line);
	line->retriggered = true;
	return 1;
}

static int chip_set_affinity(struct irq_data *data, const struct cpumask *mask, bool force)
{
	struct board_line *line = chip_line(data);

	if (the_board->placing)
		return place_line(line, data, mask);
	if (line->busy_moves) {
		line->busy_moves--;
		emit_trace("chip %d %s set_affinity: EBUSY", line->no, data->chip->name);
		return -EBUSY;
	}
	line->target = cpumask_first(mask);
	emit_trace("chip %d %s set_affinity: target %d", line->no, data->chip->name, line->target);
	irq_data_update_effective_affinity(data, cpumask_of(line->target));
	return IRQ_SET_MASK_OK;
}

static int chip_set_type(struct irq_data *data, unsigned int type)
{
	return 0;
}

static bool is_root(enum domain_kind kind)
{
	return kind != KIND_MSI && kind != KIND_REMAP;
}

static bool can_mask(enum domain_kind kind)
{
	return kind != KIND_VECTOR && kind != KIND_REMAP;
}

static bool can_retrigger(enum domain_kind kind)
{
	return kind == KIND_LATCH || kind == KIND_LPI || kind == KIND_VECTOR;
}

/* What a domain's alloc is told: the line, and the number that it has to be. */
struct alloc_info {
	struct board_line *line;
	u32 number;
	bool is_own;
};

static bool is_used(struct board_domain *of, u32 number)
{
	int i;

	for (i = 0; i < of->used_count; i++)
		if (of->used[i] == number)
			return true;
	return false;
}

static int domain_alloc(struct irq_domain *domain, unsigned int virq, unsigned int count, void *arg)
{
	struct board_domain *of = domain->host_data;
	struct alloc_info *info = arg;
	u32 number = 0;
	int ret = 0;

	if (of->parent) {
		struct alloc_info above = { .line = info->line };

		ret = irq_domain_alloc_irqs_parent(domain, virq, count, &above);
		if (ret < 0)
			return ret;
		ret = 0;
	}
	if (info->is_own)
		number = info->number;
	else
		while (is_used(of, number))
			number++;
	if (!of->tree && number >= of->size)
		ret = -ERANGE;
	else if (is_used(of, number))
		ret = -EEXIST;
	if (ret) {
		if (of->parent)
			irq_domain_free_irqs_parent(domain, virq, count);
		return ret;
	}
	of->used[of->used_count++] = number;
	if (of->parent)
		irq_domain_set_hwirq_and_chip(domain, virq, number, &of->chip, info->line);
	else
		irq_domain_set_info(domain, virq, number, &of->chip, info->line,
				    of->kind == KIND_LEVEL ? handle_level_irq :
				    of->kind == KIND_EOI || of->kind == KIND_LPI ? handle_fasteoi_irq :
				    handle_edge_irq, NULL, NULL);
	return 0;
}

static void domain_free(struct irq_domain *domain, unsigned int virq, unsigned int count)
{
	struct irq_data *data = irq_domain_get_irq_data(domain, virq);
	struct board_domain *of = domain->host_data;
	int i;

	for (i = 0; data && i < of->used_count; i++)
		if (of->used[i] == data->hwirq) {
			of->used[i] = of->used[--of->used_count];
			break;
		}
	irq_domain_free_irqs_common(domain, virq, count);
}

static int domain_activate(struct irq_domain *domain, struct irq_data *data, bool reserve)
{
	struct board_domain *of = domain->host_data;

	emit_trace("domain %s activate %lu", of->name, data->hwirq);
	if (the_board->placing && !of->parent)
		return place_first(chip_line(data), data);
	return 0;
}

static void domain_deactivate(struct irq_domain *domain, struct irq_data *data)
{
	struct board_domain *of = domain->host_data;

	emit_trace("domain %s deactivate %lu", of->name, data->hwirq);
}

static const struct irq_domain_ops domain_ops = {
	.alloc = domain_alloc,
	.free = domain_free,
	.activate = domain_activate,
	.deactivate = domain_deactivate,
};

static void make_root_chip(struct board_domain *of)
{
	struct irq_chip *chip = &of->chip;

	if (can_mask(of->kind)) {
		chip->irq_mask = chip_mask;
		chip->irq_unmask = chip_unmask;
		chip->irq_mask_ack = chip_mask_ack;
	}
	chip->irq_ack = chip_ack;
	chip->irq_eoi = chip_eoi;
	chip->irq_set_affinity = chip_set_affinity;
	if (can_retrigger(of->kind))
		chip->irq_retrigger = chip_retrigger;
}

/* A child's irq_retrigger stays NULL: try_retrigger() walks up by itself. */
static void make_child_chip(struct board_domain *of)
{
	struct irq_chip *chip = &of->chip;

	chip->irq_ack = child_ack;
	chip->irq_eoi = irq_chip_eoi_parent;
	chip->irq_set_affinity = irq_chip_set_affinity_parent;
	if (of->kind == KIND_MSI) {
		chip->irq_mask = chip_mask;
		chip->irq_unmask = chip_unmask;
		chip->irq_mask_ack = child_mask_ack;
	} else {
		chip->irq_mask = irq_chip_mask_parent;
		chip->irq_unmask = irq_chip_unmask_parent;
		chip->irq_mask_ack = irq_chip_mask_ack_parent;
	}
}

static void put_words(struct irq_chip *chip)
{
	if (has_word(WORD_MASK_FIRST))
		chip->irq_mask_ack = NULL;
	if (has_word(WORD_NO_AFFINITY))
		chip->irq_set_affinity = NULL;
	if (has_word(WORD_ONESHOT_SAFE))
		chip->flags |= IRQCHIP_ONESHOT_SAFE;
	if (has_word(WORD_IRQ_DISABLE)) {
		chip->irq_disable = chip->irq_mask;
		chip->irq_enable = chip->irq_unmask;
	}
}

int make_domain(struct board_domain *of)
{
	static int unique;
	struct irq_domain *parent = of->parent ? of->parent->domain : NULL;
	struct fwnode_handle *node;

	of->chip.name = of->name;
	of->chip.irq_set_type = chip_set_type;
	if (is_root(of->kind))
		make_root_chip(of);
	else
		make_child_chip(of);
	put_words(&of->chip);
	node = irq_domain_alloc_named_id_fwnode(of->name, unique++);
	of->domain = irq_domain_create_hierarchy(parent, 0, of->tree ? 0 : of->size, node,
						 &domain_ops, of);
	return of->domain ? 0 : -ENOMEM;
}

static void refuse(struct board_line *line, const char *why)
{
	line->refused = true;
	line->why = why;
}

static void make_cell(struct board_line *line)
{
	struct cell *cell = &line->cell;
	struct board_domain *of, *root = NULL, *masks = NULL;

	for (of = line->domain; of; of = of->parent) {
		if (!masks && can_mask(of->kind))
			masks = of;
		root = of;
	}
	if (!masks) {
		refuse(line, "no-mask");
		return;
	}
	cell->edge = root->kind != KIND_LEVEL && root->kind != KIND_EOI;
	cell->keeps = masks->kind == KIND_LATCH || masks->kind == KIND_LPI ||
		      masks->kind == KIND_PIN || masks->kind == KIND_MSI;
	cell->recalls = masks == root && cell->keeps;
	cell->serves = root->kind == KIND_EOI;
	cell->masked = true;
	line->fast_edges = root->kind == KIND_LPI;
}

/* The board's mask of a line. */
static void first_mask(struct board_line *line, cpumask_t *mask)
{
	int i;

	cpumask_clear(mask);
	for (i = 0; i < the_board->cpus; i++)
		if (line->mask & BIT(i))
			cpumask_set_cpu(i, mask);
}

/* It is set at once, also where later changes have to wait. */
static void set_first_mask(struct board_line *line)
{
	cpumask_t mask;

	first_mask(line, &mask);
	irq_set_status_flags(line->virq, SETTING_PROCESS_CONTEXT);
	if (has_word(WORD_NO_AFFINITY))
		line->target = cpumask_first(&mask);
	else
		irq_set_affinity(line->virq, &mask);
	if (line->later)
		irq_clear_status_flags(line->virq, SETTING_PROCESS_CONTEXT);
}

void set_options(struct board_line *line)
{
	if (!line->untyped)
		irq_set_irq_type(line->virq, line->cell.edge ? IRQ_TYPE_EDGE_RISING :
				 IRQ_TYPE_LEVEL_HIGH);
	if (line->unlazy)
		irq_set_status_flags(line->virq, SETTING_UNLAZY);
	if (line->no_autoen)
		irq_set_status_flags(line->virq, SETTING_NOAUTOEN);
	if (line->polled)
		irq_set_status_flags(line->virq, SETTING_POLLED);
	if (!line->unaimed)
		set_first_mask(line);
	else if (!line->later)
		irq_set_status_flags(line->virq, SETTING_PROCESS_CONTEXT);
	if (line->unbalanced)
		irq_set_status_flags(line->virq, SETTING_UNBALANCED);
	if (line->on_activate)
		irqd_set_affinity_on_activate(&line->desc->irq_data);
}

/* Where processors go, and for a line that isn't aimed, the mask comes with the allocation. */
static int allocate(struct board_line *line)
{
	struct alloc_info info = { .line = line, .number = line->number, .is_own = true };
	struct irq_affinity_desc affinity = {};

	bool masked = the_board->vectors || (line->unaimed && ~line->mask);

	if (the_board->vectors)
		machine_mask(line, &affinity.mask);
	else
		first_mask(line, &affinity.mask);
	return __irq_domain_alloc_irqs(line->domain->domain, -1, 1, NUMA_NO_NODE, &info, false,
				       masked ? &affinity : NULL);
}

void make_line(struct board_line *line)
{
	struct irq_data *data;
	int count = 0;

	make_cell(line);
	if (line->refused)
		return;
	line->virq = allocate(line);
	if (line->virq <= 0) {
		refuse(line, line->virq == -ERANGE ? "out-of-range" : "taken");
		return;
	}
	line->desc = irq_to_desc(line->virq);
	if (the_board->vectors)
		irq_set_status_flags(line->virq, SETTING_PROCESS_CONTEXT);
	else
		set_options(line);
	for (data = &line->desc->irq_data; data; data = data->parent_data) {
		struct board_domain *of = data->domain->host_data;

		count += scnprintf(line->path + count, sizeof(line->path) - count, " %s:%lu",
				   of->name, data->hwirq);
	}
}
