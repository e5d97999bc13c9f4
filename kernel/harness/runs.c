// SPDX-License-Identifier: GPL-2.0
/*
 * Devices with an interrupt enable of their own, and the runs of their handlers and
 * threads: what a run calls, what it answers and what it serves. The devices are
 * ours; of their calls irq_wake_thread() is the kernel's.
 */
#include "harness.h"

/* ------------------------------------------------------------- devices */

static bool ever_wakes(struct board_run *run)
{
	int i;

	for (i = 0; i < run->answer_count; i++)
		if (run->answers[i].answer == ANSWER_WAKE)
			return true;
	return false;
}

bool has_thread(struct board_device *device)
{
	return device->kind == DEVICE_CHECK || device->kind == DEVICE_NULL ||
	       (device->kind == DEVICE_TOLD && ever_wakes(&device->runs[PART_HANDLER]));
}

static void serve(struct board_device *device, u32 count)
{
	device->open -= count;
	device->line->served += count;
	set_high(device->line);
}

/* On an edge line a quiet device makes no edge, nor one that holds its signal already. */
void make_ask(struct actor *actor, struct board_device *device)
{
	struct board_line *line = device->line;
	bool silent = device->quiet || (device->held && device->open);

	device->open++;
	line->asks++;
	if (!line->cell.edge)
		set_high(line);
	else if (!silent)
		raise_edge(line);
	emit_row(line, "%c%d ask %d%s", WHO(actor), device->no,
		 line->cell.edge && silent ? " no" : "");
}

void make_quiet(struct actor *actor, struct board_device *device)
{
	device->quiet = true;
	set_high(device->line);
	emit_row(device->line, "%c%d quiet %d", WHO(actor), device->no);
}

void make_arm(struct actor *actor, struct board_device *device)
{
	struct board_line *line = device->line;
	bool rises = line->cell.edge && device->quiet && device->open && !device->forgets;

	device->quiet = false;
	if (rises)
		raise_edge(line);
	else
		set_high(line);
	emit_row(line, "%c%d arm %d %s", WHO(actor), device->no, rises ? "yes" : "no");
}

/* All that is unserved; a run that has begun serves nothing of it any more. */
void make_serve(struct actor *actor, struct board_device *device)
{
	u32 count = device->open;

	serve(device, count);
	device->runs[PART_HANDLER].at_begin = 0;
	device->runs[PART_THREAD].at_begin = 0;
	emit_row(device->line, "%c%d serve %d %u", WHO(actor), device->no, count);
}

void make_wake(struct actor *actor, struct board_device *device)
{
	struct irq_desc *desc = device->line->desc;
	int active = atomic_read(&desc->threads_active);

	irq_wake_thread(device->line->virq, device);
	emit_row(device->line, "%c%d wake %d %s", WHO(actor), device->no,
		 atomic_read(&desc->threads_active) > active ? "yes" : "no");
}

/* ---------------------------------------------------------------- runs */

/* What the board says of the run that begins; after the last answer nothing. */
static enum answer told_answer(struct board_run *run)
{
	u32 place = run->begun;
	int i;

	for (i = 0; i < run->answer_count; i++) {
		if (place < run->answers[i].times)
			return run->answers[i].answer;
		place -= run->answers[i].times;
	}
	return ANSWER_NOTHING;
}

static enum answer next_answer(struct board_device *device, enum part part)
{
	switch (device->kind) {
	case DEVICE_TOLD:
		return told_answer(&device->runs[part]);
	case DEVICE_STUCK:
	case DEVICE_ODD:
		return ANSWER_NOTHING;
	case DEVICE_NULL:
		if (part == PART_HANDLER)
			return ANSWER_WAKE;	/* the kernel's own handler */
		break;
	default:
		break;
	}
	if (!device->open)
		return ANSWER_NOTHING;
	return device->kind == DEVICE_CHECK && part == PART_HANDLER ? ANSWER_WAKE : ANSWER_HANDLED;
}

void begin_run(struct board_device *device, enum part part)
{
	struct board_run *run = &device->runs[part];

	run->answer = next_answer(device, part);
	run->at_begin = device->open;
	run->begun++;
}

/* The script of a run, with a gate after each call. A handler that knows nothing of it makes none. */
void make_run_calls(struct actor *actor, struct board_device *device, enum part part)
{
	struct board_run *run = &device->runs[part];
	int i;

	if (part == PART_HANDLER && run->answer == ANSWER_NOTHING)
		return;
	for (i = 0; i < run->script.count; i++) {
		make_call(actor, &run->script.calls[i]);
		pass_gate(actor, part == PART_HANDLER ? GATE_RETURN : GATE_THREAD);
	}
}

/* Where the script serves the device, returning doesn't. */
static bool serves_by_call(struct board_device *device, enum part part)
{
	struct script *script = &device->runs[part].script;
	int i;

	for (i = 0; i < script->count; i++)
		if (script->calls[i].op == CALL_SERVE && script->calls[i].device == device)
			return true;
	return false;
}

static bool serves_by_return(struct board_device *device, enum part part)
{
	if (part != (has_thread(device) ? PART_THREAD : PART_HANDLER) || serves_by_call(device, part))
		return false;
	return device->kind == DEVICE_ODD || device->runs[part].answer == ANSWER_HANDLED;
}

/* The run returns; how many asks it has served by that. */
u32 end_run(struct board_device *device, enum part part)
{
	u32 served = serves_by_return(device, part) ? device->runs[part].at_begin : 0;

	serve(device, served);
	return served;
}
