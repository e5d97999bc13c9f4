// SPDX-License-Identifier: GPL-2.0
/*
 * Processors that go offline and come online before the play. The machine's own
 * go, by the kernel's own way down; that of the board's processor N is N + 1, since
 * processor 0 plays. A line is at work meanwhile: it has an action of the harness's,
 * since only lines that are started are moved. That a processor has so many vectors,
 * and which one a line gets, is the chip's; which processors it may take, the kernel
 * says.
 */
#include <linux/cpu.h>
#include "harness.h"

static irqreturn_t hold_line(int virq, void *cookie)
{
	return IRQ_NONE;
}

static int machine_cpu(int cpu)
{
	return cpu + 1;
}

/* The lowest vector of the processor that no line has, or -1. */
static int free_vector(int cpu)
{
	u64 taken = 0;
	int i;

	for (i = 0; i < the_board->line_count; i++)
		if (the_board->lines[i].place == cpu)
			taken |= BIT_ULL(the_board->lines[i].vector);
	i = taken == ~0ULL ? 64 : __ffs64(~taken);
	return i < the_board->vectors ? i : -1;
}

static int place_within(struct board_line *line, struct irq_data *data, const struct cpumask *mask)
{
	int cpu, vector;

	if (line->place >= 0 && cpumask_test_cpu(machine_cpu(line->place), mask))
		return 0;
	for (cpu = 0; cpu < the_board->cpus; cpu++) {
		vector = cpumask_test_cpu(machine_cpu(cpu), mask) ? free_vector(cpu) : -1;
		if (vector < 0)
			continue;
		line->place = cpu;
		line->vector = vector;
		irq_data_update_effective_affinity(data, cpumask_of(machine_cpu(cpu)));
		return 0;
	}
	return -ENOSPC;
}

/* The chip is aimed: the line stays if it may, else the lowest processor with a vector has it. */
int place_line(struct board_line *line, struct irq_data *data, const struct cpumask *mask)
{
	int ret = place_within(line, data, mask);

	if (ret && has_rule(RULE_LEAVE_FULL_MASK))
		ret = place_within(line, data, cpu_online_mask);
	return ret;
}

/* At its activation a line gets a vector of its mask, or any, as on x86. */
int place_first(struct board_line *line, struct irq_data *data)
{
	cpumask_t mask;

	cpumask_and(&mask, irq_data_get_affinity_mask(data), cpu_online_mask);
	return place_within(line, data, &mask) ? place_within(line, data, cpu_online_mask) : 0;
}

/* The board's mask of a line, in the machine's processors. */
void machine_mask(struct board_line *line, struct cpumask *mask)
{
	int cpu;

	cpumask_clear(mask);
	for (cpu = 0; cpu < the_board->cpus; cpu++)
		if (line->mask & BIT(cpu))
			cpumask_set_cpu(machine_cpu(cpu), mask);
}

static u32 queues(struct board_line *line)
{
	u32 count = 0;
	int i;

	for (i = 0; i < the_board->device_count; i++)
		count += the_board->devices[i].line == line;
	return max(count, 1u);
}

/* Tells where a line is placed. If that is a move, the system's driver will make it in the play. */
static void emit_place(struct actor *driver, struct board_line *line)
{
	if (line->place < 0) {
		emit("# vector %d none", line->no);
		return;
	}
	emit("# vector %d %d %d %u", line->no, line->place, line->vector,
	     line->place % queues(line));
	if (line->place != line->aimed)
		add_call(driver, CALL_AFFINITY, line, BIT(line->place));
	line->aimed = line->place;
}

/* The line's notifier, as a driver has one. */
static void be_told(struct irq_affinity_notify *notify, const cpumask_t *mask)
{
	struct board_line *line = container_of(notify, struct board_line, notify);

	emit("# outside of the log: line %d, its notifier is called", line->no);
}

static void let_notifier_go(struct kref *ref)
{
}

static void hold(struct board_line *line)
{
	int ret = request_threaded_irq(line->virq, hold_line, NULL, 0, "held", line);

	if (ret && ret != -ENOSPC)
		emit("F line %d can't be held: %d", line->no, ret);
	line->notify.notify = be_told;
	line->notify.release = let_notifier_go;
	if (!ret)
		irq_set_affinity_notifier(line->virq, &line->notify);
}

static void hold_lines(struct actor *driver)
{
	int i;

	for (i = 0; i < the_board->line_count; i++) {
		the_board->lines[i].place = -1;
		the_board->lines[i].aimed = __ffs(the_board->lines[i].mask);
	}
	for (i = 0; i < the_board->line_count; i++)
		if (!the_board->lines[i].refused) {
			hold(&the_board->lines[i]);
			emit_place(driver, &the_board->lines[i]);
		}
}

static void let_lines_go(void)
{
	int i;

	for (i = 0; i < the_board->line_count; i++) {
		struct board_line *line = &the_board->lines[i];

		if (line->place < 0)
			continue;
		flush_work(&line->notify.work);
		irq_set_affinity_notifier(line->virq, NULL);
		free_irq(line->virq, line);
	}
}

static bool is_online(int cpu)
{
	return cpu_online(machine_cpu(cpu));
}

/* The first line on the processor for which all others together have no vector, as x86 counts. */
static struct board_line *left_over(int cpu)
{
	int i, left = 0;

	for (i = 0; i < the_board->cpus; i++)
		if (i != cpu && is_online(i))
			left += the_board->vectors;
	for (i = 0; i < the_board->line_count; i++) {
		int place = the_board->lines[i].place;

		left -= place >= 0 && place != cpu && is_online(place);
	}
	for (i = 0; i < the_board->line_count; i++)
		if (the_board->lines[i].place == cpu && --left < 0)
			return &the_board->lines[i];
	return NULL;
}

static bool is_last(int cpu)
{
	int i;

	for (i = 0; i < the_board->cpus; i++)
		if (i != cpu && is_online(i))
			return false;
	return true;
}

static void keep_masks(void)
{
	int i;

	for (i = 0; i < the_board->line_count && has_rule(RULE_KEEP_MASK); i++) {
		struct board_line *line = &the_board->lines[i];

		if (line->place >= 0)
			machine_mask(line, line->desc->irq_common_data.affinity);
	}
}

/* Takes the processor offline, and tells the lines that were there, or that moved. */
static void take_off(struct actor *driver, int cpu)
{
	int places[MAX_LINES], i, ret;

	for (i = 0; i < the_board->line_count; i++)
		places[i] = the_board->lines[i].place;
	ret = remove_cpu(machine_cpu(cpu));
	if (ret)
		emit("F processor %d doesn't go offline: %d", cpu, ret);
	emit("# off %d ok", cpu);
	for (i = 0; i < the_board->line_count; i++)
		if (places[i] == cpu || places[i] != the_board->lines[i].place)
			emit_place(driver, &the_board->lines[i]);
	keep_masks();
}

static void bring_up(int cpu)
{
	int ret = add_cpu(machine_cpu(cpu));

	if (ret)
		emit("F processor %d doesn't come online: %d", cpu, ret);
}

static void take_event(struct actor *driver, struct board_event *event)
{
	const char *word = event->off ? "off" : "on", *why = NULL;
	bool there = event->cpu < the_board->cpus;
	struct board_line *left = NULL;

	if (!there)
		why = "not-there";
	else if (is_online(event->cpu) != event->off)
		why = event->off ? "not-online" : "is-online";
	else if (event->off && is_last(event->cpu))
		why = "last";
	else if (event->off)
		left = left_over(event->cpu);
	if (why) {
		emit("# %s %u refused %s", word, event->cpu, why);
	} else if (left) {
		emit("# off %u refused no-vector %d", event->cpu, left->no);
	} else if (event->off) {
		take_off(driver, event->cpu);
	} else {
		bring_up(event->cpu);
		emit("# on %u ok", event->cpu);
	}
}

/* The placings and the events. After them all are online, and the lines as they were laid out. */
void take_events(void)
{
	struct actor *driver = add_system_driver();
	int i;

	the_board->placing = true;
	hold_lines(driver);
	for (i = 0; i < the_board->event_count; i++)
		take_event(driver, &the_board->events[i]);
	let_lines_go();
	for (i = 0; i < the_board->cpus; i++)
		if (!is_online(i))
			bring_up(i);
	the_board->placing = false;
	for (i = 0; i < the_board->line_count; i++)
		if (!the_board->lines[i].refused)
			set_options(&the_board->lines[i]);
}
