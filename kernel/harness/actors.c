// SPDX-License-Identifier: GPL-2.0
/*
 * The actors: a kernel thread for each driver and each processor of the board, and
 * the kernel's own threads of its interrupts. One moves at a time, from a gate to
 * its next one; the scheduler says which.
 */
#include "harness.h"

DECLARE_WAIT_QUEUE_HEAD(scheduler_wait);
static DEFINE_RAW_SPINLOCK(state_lock);

struct actor *current_actor(void)
{
	struct board *board = the_board;
	int i;

	if (!board || in_hardirq() || in_serving_softirq())
		return NULL;
	for (i = 0; i < board->cpus; i++)
		if (board->processors[i].task == current)
			return &board->processors[i];
	for (i = 0; i < board->driver_count; i++)
		if (board->drivers[i].task == current)
			return &board->drivers[i];
	for (i = 0; i < board->device_count; i++)
		if (board->devices[i].thread.task == current)
			return &board->devices[i].thread;
	return NULL;
}

void set_actor_state(struct actor *actor, enum actor_state state)
{
	unsigned long flags;

	raw_spin_lock_irqsave(&state_lock, flags);
	actor->state = state;
	raw_spin_unlock_irqrestore(&state_lock, flags);
}

/* Waits at a gate until told to go on. Nothing of the kernel's is held at one. */
void pass_gate(struct actor *actor, enum gate gate)
{
	bool irqs_were_off = irqs_disabled();

	actor->gate = gate;
	set_actor_state(actor, AT_GATE);
	if (irqs_were_off)
		local_irq_enable();
	wake_up(&scheduler_wait);
	wait_event(actor->wait, actor->go);
	if (irqs_were_off)
		local_irq_disable();
	actor->go = false;
	set_actor_state(actor, RUNS);
}

/* --------------------------------------------------------------- calls */

static const char *resent_by(struct board_line *line)
{
	return line->retriggered ? "chip" : line->scheduled ? "soft" : "no";
}

static void emit_linked(struct actor *driver, struct board_call *call, const char *flags)
{
	struct board_line *line = call->line;
	const char *opened = "no", *resent = "";
	bool opens = !driver->was_linked || driver->had_spurious;

	if (driver->was_linked && driver->had_spurious)
		opened = !driver->depth_before ? "unbalanced" : "lowered";
	if (opens && !line->desc->depth && (!driver->was_linked || driver->depth_before)) {
		opened = "started ";
		resent = resent_by(line);
	}
	emit_row(line, "d%d request %d %s linked %s%s", driver->no, call->device->no, flags,
		 opened, resent);
}

static void make_request(struct actor *driver, struct board_call *call)
{
	struct board_device *device = call->device;
	struct board_line *line = call->line;
	unsigned long irqflags = 0;
	char flags[4] = "";
	int ret;

	if (call->shared) {
		irqflags |= IRQF_SHARED;
		strcat(flags, "s");
	}
	if (call->oneshot) {
		irqflags |= IRQF_ONESHOT;
		strcat(flags, "o");
	}
	if (call->noauto) {
		irqflags |= IRQF_NO_AUTOEN;
		strcat(flags, "n");
	}
	if (!irqflags)
		strcat(flags, "-");
	while (has_rule(RULE_REFUSE_LATER) && call->shared && call->noauto &&
	       mutex_is_locked(&line->desc->request_mutex))
		pass_gate(driver, GATE_MUTEX);
	ret = request_threaded_irq(line->virq, device->kind == DEVICE_NULL ? NULL : board_primary,
				   has_thread(device) ? board_thread : NULL, irqflags, device->name,
				   device);
	if (ret) {
		device->thread.task = NULL;
		set_actor_state(&device->thread, DEAD);
		emit_row(line, "d%d request %d %s refused %d", driver->no, device->no, flags, -ret);
		return;
	}
	emit_linked(driver, call, flags);
}

static void make_free(struct actor *actor, struct board_call *call)
{
	actor->was_there = false;
	free_irq(call->line->virq, call->device);
	if (actor->was_there)
		emit_row(call->line, "%c%d freed %d", WHO(actor), call->device->no);
	else
		emit_row(call->line, "%c%d unlink %d notthere", WHO(actor), call->device->no);
}

/* synchronize_irq(), with the gate before its second look. */
static void make_sync(struct actor *actor, struct board_line *line)
{
	actor->syncs = true;
	synchronize_irq(line->virq);
}

static void make_sync_hard(struct actor *actor, struct board_line *line)
{
	synchronize_hardirq(line->virq);
	emit_row(line, "%c%d hardclear", WHO(actor));
}

/* disable_irq() and disable_hardirq() are two calls each; the gate is between them. */
static void make_disable(struct actor *actor, struct board_call *call)
{
	disable_irq_nosync(call->line->virq);
	emit_row(call->line, "%c%d disable", WHO(actor));
	note_down(actor, call->line);
	if (call->op == CALL_DISABLE_NOSYNC)
		return;
	emit_state(call->line);
	pass_gate(actor, GATE_HARDCLEAR);
	if (call->op == CALL_DISABLE_HARD)
		make_sync_hard(actor, call->line);
	else
		make_sync(actor, call->line);
}

static void make_enable(struct actor *actor, struct board_line *line)
{
	struct irq_desc *desc = line->desc;
	unsigned int before = desc->depth;

	if (has_rule(RULE_UNLINKED_ENABLE) && !desc->action) {
		emit_row(line, "%c%d enable unbalanced", WHO(actor));
		return;
	}
	if (line->enforced)
		irqd_set_handle_enforce_irqctx(&desc->irq_data);
	enable_irq(line->virq);
	if (actor->letter == 'd')
		wait_for_tasklet();
	if (line->enforced)
		irqd_clear(&desc->irq_data, IRQD_HANDLE_ENFORCE_IRQCTX);
	if (!before)
		emit_row(line, "%c%d enable unbalanced", WHO(actor));
	else if (desc->depth)
		emit_row(line, "%c%d enable lowered", WHO(actor));
	else
		emit_row(line, "%c%d enable started %s", WHO(actor), resent_by(line));
}

/* The mask of a call; the last processor of a cpumask is never there. */
static void mask_of(struct board_call *call, cpumask_t *mask)
{
	int i;

	cpumask_clear(mask);
	for (i = 0; i < 32; i++)
		if (call->number & BIT(i))
			cpumask_set_cpu(i < the_board->cpus ? i : NR_CPUS - 1, mask);
}

static void make_affinity(struct actor *driver, struct board_call *call)
{
	struct board_line *line = call->line;
	cpumask_t mask;
	int ret;

	mask_of(call, &mask);
	if (has_rule(RULE_EMPTY_MASK) && line->later && !cpumask_intersects(&mask, cpu_online_mask))
		ret = -EINVAL;
	else
		ret = irq_set_affinity(line->virq, &mask);
	if (ret)
		emit_row(line, "d%d affinity %u refused %d", driver->no, call->number, -ret);
	else
		emit_row(line, "d%d affinity %u %s", driver->no, call->number,
			 irqd_is_setaffinity_pending(&line->desc->irq_data) ? "later" : "now");
}

static void make_call_of_device(struct actor *actor, struct board_call *call)
{
	switch (call->op) {
	case CALL_ASK:
		make_ask(actor, call->device);
		break;
	case CALL_QUIET:
		make_quiet(actor, call->device);
		break;
	case CALL_ARM:
		make_arm(actor, call->device);
		break;
	case CALL_SERVE:
		make_serve(actor, call->device);
		break;
	case CALL_WAKE:
		make_wake(actor, call->device);
		break;
	case CALL_REQUEST:
		make_request(actor, call);
		break;
	default:
		make_free(actor, call);
		break;
	}
}

static void make_other_call(struct actor *actor, struct board_call *call)
{
	struct board_line *line = call->line;

	switch (call->op) {
	case CALL_DISABLE:
	case CALL_DISABLE_NOSYNC:
	case CALL_DISABLE_HARD:
		make_disable(actor, call);
		break;
	case CALL_SYNC:
		make_sync(actor, line);
		break;
	case CALL_SYNC_HARD:
		make_sync_hard(actor, line);
		break;
	case CALL_ENABLE:
		make_enable(actor, line);
		break;
	case CALL_AFFINITY:
		make_affinity(actor, call);
		break;
	case CALL_MOMENT:
		line->now = max(line->now, call->number);
		emit_row(line, "%c%d moment %u", WHO(actor), call->number);
		break;
	case CALL_BUSY:
		line->busy_moves = call->number;
		break;
	case CALL_POLL:
		run_poll();
		break;
	case CALL_DEFAULT:
		mask_of(call, irq_default_affinity);
		break;
	default:
		break;
	}
}

/* A call of a driver, or within a run of a handler or a thread. */
void make_call(struct actor *actor, struct board_call *call)
{
	struct board_line *line = call->line;

	actor->call = call;
	actor->line = line;
	actor->unlinked = false;
	if (line)
		line->retriggered = line->scheduled = false;
	if (has_word(WORD_REAL_SOFT) && actor->letter == 'd')
		set_cpus_allowed_ptr(current, cpumask_of(3));	/* qemu has 4 or more */
	if (call->device)
		make_call_of_device(actor, call);
	else
		make_other_call(actor, call);
	actor->call = NULL;
	if (line)
		emit_state(line);
}

/* ------------------------------------------------------------- drivers */

/* The words of the harness make no step of their own: they go with the call after them. */
static bool is_word(struct board_call *call)
{
	return call->op >= CALL_BUSY;
}

static bool is_passed_over(struct board_call *call)
{
	return call->line && call->line->refused;
}

static int run_driver(void *cookie)
{
	struct actor *driver = cookie;
	struct board_call *call;

	for (;;) {
		pass_gate(driver, GATE_SCRIPT);
		do {
			call = &driver->script.calls[driver->pos];
			if (!is_passed_over(call))
				make_call(driver, call);
			driver->pos++;
		} while (driver->pos < driver->script.count && (is_word(call) || is_passed_over(call)));
		the_board->moves++;
	}
	return 0;
}

static int run_processor(void *cookie)
{
	struct actor *cpu = cookie;

	for (;;) {
		pass_gate(cpu, GATE_IDLE);
		run_take(cpu);
	}
	return 0;
}

/* ----------------------------------------------------------- scheduler */

bool was_woken(struct actor *thread)
{
	struct irqaction *action = kthread_data(thread->task);

	return test_bit(IRQTF_RUNTHREAD, &action->thread_flags);
}

/* Who is in kthread_stop() goes on once that thread isn't at work; its own always is. */
static bool will_go_on(struct actor *actor)
{
	struct actor *thread = &actor->call->device->thread;

	if (thread->state == DEAD)
		return true;
	return thread->state == AT_GATE && thread->gate == GATE_BEGIN && !was_woken(thread);
}

static bool runs_on(struct actor *actor)
{
	return actor->state == RUNS || (actor->state == STOPS_THREAD && will_go_on(actor));
}

static bool any_runs(void)
{
	struct board *board = the_board;
	unsigned long flags;
	bool runs = false;
	int i;

	raw_spin_lock_irqsave(&state_lock, flags);
	for (i = 0; i < board->cpus; i++)
		runs |= board->processors[i].state == RUNS;
	for (i = 0; i < board->driver_count; i++)
		runs |= runs_on(&board->drivers[i]);
	for (i = 0; i < board->device_count; i++)
		runs |= runs_on(&board->devices[i].thread);
	raw_spin_unlock_irqrestore(&state_lock, flags);
	return runs;
}

static void wait_for_gates(void)
{
	if (wait_event_timeout(scheduler_wait, !any_runs(), 20 * HZ))
		return;
	emit("F an actor didn't come to its next gate within 20 seconds");
	wait_event(scheduler_wait, !any_runs());
}

/* Lets an actor pass its gate and come to its next one; whether it made a step. */
static bool let_go(struct actor *actor)
{
	u32 total = the_board->total, moves = the_board->moves;
	unsigned long flags;

	raw_spin_lock_irqsave(&state_lock, flags);
	actor->go = true;
	actor->state = RUNS;
	raw_spin_unlock_irqrestore(&state_lock, flags);
	wake_up(&actor->wait);
	wait_for_gates();
	return the_board->total != total || the_board->moves != moves || the_board->full;
}

static bool step_thread(struct actor *thread)
{
	if (thread->gate == GATE_BEGIN && !was_woken(thread))
		return false;
	if (let_go(thread))
		return true;
	/* irq_finalize_oneshot() found a flow in progress, and tries again */
	return thread->state == AT_GATE && thread->gate == GATE_FINISH &&
	       !irqd_irq_inprogress(&thread->device->line->desc->irq_data) && let_go(thread);
}

/* The processor that takes the line. */
static int taker(struct board_line *line)
{
	bool stays = has_word(WORD_SENT_STAYS) && line->cell.edge && line->cell.sent;

	return stays ? line->cell.sent_to : line->target;
}

static bool step_processor(struct actor *cpu)
{
	int i;

	if (cpu->gate != GATE_IDLE)
		return let_go(cpu);
	for (i = 0; i < the_board->line_count; i++) {
		struct board_line *line = &the_board->lines[i];
		bool signal = has_signal(&line->cell);

		if (!line->refused && taker(line) == cpu->no && (signal || line->soft)) {
			cpu->line = line;
			cpu->resend = !signal;
			return let_go(cpu);
		}
	}
	return false;
}

static bool has_call(struct actor *driver)
{
	struct script *script = &driver->script;

	while (driver->pos < script->count && is_passed_over(&script->calls[driver->pos]))
		driver->pos++;
	return driver->pos < script->count;
}

/* Whether the driver is in such a call, or is to make one next. */
bool is_next(struct actor *driver, enum call_op op)
{
	return has_call(driver) && driver->script.calls[driver->pos].op == op;
}

static bool step_driver(struct actor *driver)
{
	if (driver->gate == GATE_SCRIPT && !has_call(driver))
		return false;
	return let_go(driver);
}

bool step(struct actor *actor)
{
	if (actor->state != AT_GATE)
		return false;
	if (actor->letter == 't')
		return step_thread(actor);
	return actor->letter == 'c' ? step_processor(actor) : step_driver(actor);
}

/* Threads before processors. */
bool step_inner(void)
{
	int i;

	for (i = 0; i < the_board->device_count; i++)
		if (step(&the_board->devices[i].thread))
			return true;
	for (i = 0; i < the_board->cpus; i++)
		if (step(&the_board->processors[i]))
			return true;
	return false;
}

/* Those before drivers. */
static bool step_lowest(void)
{
	int i;

	if (step_inner())
		return true;
	for (i = 0; i < the_board->driver_count; i++)
		if (step(&the_board->drivers[i]))
			return true;
	return false;
}

static struct actor *picked(struct board_pick *pick)
{
	int i;

	if (pick->letter == 'c')
		return pick->no < the_board->cpus ? &the_board->processors[pick->no] : NULL;
	for (i = 0; pick->letter == 'd' && i < the_board->driver_count; i++)
		if (the_board->drivers[i].no == pick->no)
			return &the_board->drivers[i];
	for (i = 0; pick->letter == 't' && i < the_board->device_count; i++)
		if (the_board->devices[i].no == pick->no)
			return &the_board->devices[i].thread;
	return NULL;
}

static void start(struct actor *actor, int (*body)(void *), const char *name)
{
	init_waitqueue_head(&actor->wait);
	actor->state = RUNS;
	actor->task = kthread_create(body, actor, "%s%d", name, actor->no);
	/* one moves at a time, so one processor is the fastest */
	set_cpus_allowed_ptr(actor->task, cpumask_of(0));
	wake_up_process(actor->task);
}

static void start_all(void)
{
	int i;

	for (i = 0; i < the_board->device_count; i++) {
		struct board_device *device = &the_board->devices[i];

		init_waitqueue_head(&device->thread.wait);
		device->thread.letter = 't';
		device->thread.no = device->no;
		device->thread.device = device;
		device->thread.line = device->line;
	}
	for (i = 0; i < the_board->cpus; i++) {
		the_board->processors[i].letter = 'c';
		the_board->processors[i].no = i;
		start(&the_board->processors[i], run_processor, "processor");
	}
	for (i = 0; i < the_board->driver_count; i++)
		start(&the_board->drivers[i], run_driver, "driver");
	wait_for_gates();
}

bool goes_on(void)
{
	return !the_board->full && the_board->total < the_board->rows;
}

/* The picks first, then always the lowest actor that can move. */
void play_board(void)
{
	u32 times;
	int i;

	start_all();
	for (i = 0; i < the_board->pick_count && goes_on(); i++) {
		struct board_pick *pick = &the_board->picks[i];
		struct actor *actor = picked(pick);

		for (times = 0; actor && times < pick->times && goes_on(); times++)
			if (!step(actor))
				emit_trace("pick %c%d is passed over", pick->letter, pick->no);
	}
	if (the_board->sleeps)
		play_sleep();
	while (goes_on() && step_lowest())
		cond_resched();
	if (the_board->full)
		emit("# log full: line %d at %u entries", the_board->full->no, the_board->log);
	else if (!goes_on())
		emit("# stopped at %u rows", the_board->total);
	else
		emit_waits();
}
