// SPDX-License-Identifier: GPL-2.0
/*
 * What hooks.h puts into the text of kernel/irq, and the handlers of the devices.
 * Each row of the log is made here, or where a call is made, from what the kernel
 * did: who is linked, the depth before and after, bits, counts, calls of chips.
 */
#include <linux/delay.h>
#include "harness.h"

bool harness_floor = true;
unsigned long harness_jiffies;
unsigned int harness_hz = 1000;
unsigned int harness_window = 100000;
unsigned int harness_limit = 99900;

static struct tasklet_struct *resend_tasklet;
static int resend_virq = -1;
static struct timer_list *poll_timer;

static struct actor *current_of(char letter)
{
	struct actor *actor = current_actor();

	return actor && actor->letter == letter ? actor : NULL;
}

/* The actor that runs, if it is in a call. */
static struct actor *caller(void)
{
	struct actor *actor = current_actor();

	return actor && actor->call ? actor : NULL;
}

/* The same, if it is in this call. */
static struct actor *caller_in(enum call_op op)
{
	struct actor *actor = caller();

	return actor && actor->call->op == op ? actor : NULL;
}

/* The interrupt thread that runs, outside of the calls of its run. */
static struct actor *thread_outside(void)
{
	struct actor *thread = current_of('t');

	return thread && !thread->call ? thread : NULL;
}

static struct board_device *device_of(struct actor *actor)
{
	return actor->call->device;
}

/* ------------------------------------------------------------ manage.c */

bool harness_cpu_relax(void)
{
	struct actor *actor = current_actor();

	if (!actor)
		return false;
	pass_gate(actor, actor->call ? GATE_SPIN : GATE_WAIT);
	return true;
}

void harness_mutex_lock(struct mutex *mutex)
{
	struct actor *actor = caller();

	if (!actor) {
		mutex_lock(mutex);
		return;
	}
	while (!mutex_trylock(mutex))
		pass_gate(actor, GATE_MUTEX);
}

/* A free that is past its look at the flow. */
static void emit_free_cleared(struct actor *actor)
{
	if (actor->unlinked && !actor->cleared) {
		actor->cleared = true;
		emit_row(actor->line, "%c%d hardclear", WHO(actor));
	}
}

void harness_mutex_unlock(struct mutex *mutex)
{
	struct actor *actor = caller_in(CALL_FREE);

	if (actor && actor->unlinked) {
		emit_free_cleared(actor);
		pass_gate(actor, GATE_FREED);
	}
	mutex_unlock(mutex);
}

static void before_request(struct actor *driver, struct irq_desc *desc)
{
	struct board_device *device = device_of(driver);

	/* The call may have waited for the mutex: what others sent again meanwhile isn't its own. */
	driver->line->retriggered = driver->line->scheduled = false;
	driver->was_linked = desc->action;
	driver->depth_before = desc->depth;
	driver->had_spurious = desc->istate & IRQS_SPURIOUS_DISABLED;
	if (has_thread(device)) {
		device->thread.stopper = NULL;
		set_actor_state(&device->thread, RUNS);	/* until it comes to its gate */
	}
}

static void before_unlink(struct actor *actor, struct irq_desc *desc)
{
	struct irqaction *action;

	actor->was_there = false;
	for (action = desc->action; action; action = action->next)
		if (action->dev_id == device_of(actor))
			actor->was_there = true;
}

/* The last unlink is over: what genirq's rules make of the line. */
static void put_unlink_rules(struct board_line *line)
{
	struct irq_desc *desc = line->desc;
	unsigned long flags;

	if (has_rule(RULE_DEPTH_ONE)) {
		raw_spin_lock_irqsave(&desc->lock, flags);
		desc->depth = 1;
		raw_spin_unlock_irqrestore(&desc->lock, flags);
	}
	if (has_rule(RULE_UNLAZY_STAYS) && line->unlazy)
		irq_set_status_flags(line->virq, SETTING_UNLAZY);
}

static void after_unlink(struct actor *actor, struct irq_desc *desc)
{
	actor->unlinked = true;
	actor->cleared = false;
	if (!desc->action)
		put_unlink_rules(actor->line);
	emit_row(actor->line, "%c%d unlink %d %s", WHO(actor), device_of(actor)->no,
		 desc->action ? "more" : "last");
	pass_gate(actor, GATE_HARDCLEAR);
}

static void after_finish(struct actor *thread, struct irq_desc *desc)
{
	struct irqaction *action = kthread_data(current);
	bool kept = desc->threads_oneshot & action->thread_mask;

	if (kept != test_bit(IRQTF_RUNTHREAD, &action->thread_flags))
		emit("H the bit of thread %d and RUNTHREAD differ", thread->no);
	emit_row(thread->device->line, "t%d finish %s %s", thread->no, kept ? "kept" : "cleared",
		 thread->device->line->unmasks ? "unmask" : "asis");
}

void harness_bus_lock(struct irq_desc *desc)
{
	struct actor *actor = current_actor();

	if (thread_outside()) {
		pass_gate(actor, GATE_FINISH);
		actor->line->unmasks = 0;
	}
	if (caller_in(CALL_REQUEST))
		before_request(actor, desc);
	if (caller_in(CALL_FREE)) {
		if (actor->unlinked)
			emit_free_cleared(actor);
		else
			before_unlink(actor, desc);
	}
	if (desc->irq_data.chip->irq_bus_lock)
		desc->irq_data.chip->irq_bus_lock(&desc->irq_data);
}

void harness_bus_unlock(struct irq_desc *desc)
{
	struct actor *actor = current_actor();

	if (desc->irq_data.chip->irq_bus_sync_unlock)
		desc->irq_data.chip->irq_bus_sync_unlock(&desc->irq_data);
	if (thread_outside() && !irqd_irq_inprogress(&desc->irq_data))
		after_finish(actor, desc);
	if (caller_in(CALL_FREE) && !actor->unlinked && actor->was_there)
		after_unlink(actor, desc);
}

bool harness_is_sync(void)
{
	struct actor *actor = caller();

	return actor && actor->syncs;
}

void harness_sync_gate(struct irq_desc *desc, bool first)
{
	struct actor *actor = caller();

	if (first)
		emit_row(actor->line, "%c%d hardclear", WHO(actor));
	pass_gate(actor, GATE_SYNCED);
}

void harness_synced(void)
{
	struct actor *actor = caller();

	actor->syncs = false;
	emit_row(actor->line, "%c%d synced", WHO(actor));
}

/* An interrupt's thread is about to look whether it was woken. */
bool harness_should_stop(struct irqaction *action)
{
	struct board_device *device = action->dev_id;
	struct actor *thread;

	if (action->thread_fn != board_thread)
		return (kthread_should_stop)();
	thread = &device->thread;
	set_current_state(TASK_RUNNING);
	thread->task = current;
	thread->gate = GATE_BEGIN;
	set_actor_state(thread, AT_GATE);
	wake_up(&scheduler_wait);
	wait_event(thread->wait, thread->go || ((kthread_should_stop)() &&
		   !test_bit(IRQTF_RUNTHREAD, &action->thread_flags)));
	if (thread->go) {
		thread->go = false;
		set_actor_state(thread, RUNS);
	} else {
		thread->task = NULL;
		if (thread->stopper && thread->stopper->state == STOPS_THREAD)
			set_actor_state(thread->stopper, RUNS);
		set_actor_state(thread, DEAD);
	}
	return (kthread_should_stop)();
}

void harness_kthread_stop(struct task_struct *task)
{
	struct actor *actor = caller_in(CALL_FREE);

	if (actor) {
		struct actor *thread = &device_of(actor)->thread;
		struct irqaction *action = kthread_data(task);

		emit_free_cleared(actor);
		thread->stopper = actor;
		if (thread->task == task && (thread->gate != GATE_BEGIN ||
		    test_bit(IRQTF_RUNTHREAD, &action->thread_flags)))
			set_actor_state(actor, STOPS_THREAD);
		wake_up(&scheduler_wait);
	}
	kthread_stop(task);	/* a thread that stops itself stays here */
	if (actor)
		set_actor_state(actor, RUNS);
}

void harness_done_gate(void)
{
	struct actor *thread = current_of('t');

	if (thread) {
		pass_gate(thread, GATE_DONE);
		emit_row(thread->device->line, "t%d done", thread->no);
	}
}

/* ------------------------------------------------------------ handle.c */

static void end_walk(struct actor *cpu)
{
	cpu->ending = true;
	cpu->line->unmasks = 0;
	cpu->line->sent_again = false;
}

/* The kernel masked the line at the take since it is one-shot; genirq doesn't. */
static void open_fast_edges(struct board_line *line)
{
	struct irq_desc *desc = line->desc;

	if (line->fast_edges && has_rule(RULE_FAST_EOI_OPEN) && (desc->istate & IRQS_ONESHOT)) {
		raw_spin_lock(&desc->lock);
		unmask_irq(desc);
		raw_spin_unlock(&desc->lock);
	}
}

static struct irqaction *first_outside(struct board_line *line, struct irq_desc *desc)
{
	emit("H a walk of line %d outside of the actors, on processor %d, target %d, %s", line->no,
	     raw_smp_processor_id(), line->target,
	     desc->istate & IRQS_POLL_INPROGRESS ? "by the poll" : "by the tasklet");
	return READ_ONCE(desc->action);
}

struct irqaction *harness_first(struct irq_desc *desc)
{
	struct board_line *line = line_of(desc);
	struct actor *cpu = current_of('c');

	if (!line)
		return READ_ONCE(desc->action);
	if (!cpu)
		return first_outside(line, desc);
	if (cpu->ending) {
		emit_end(cpu, true);
	} else {
		open_fast_edges(line);
		emit_row(line, "c%d take %s handle", cpu->no, cpu->resend ? "resend" : "line");
		line->takes++;
		cpu->began = true;
	}
	emit_state(line);
	pass_gate(cpu, GATE_NEXT);
	if (!desc->action)
		end_walk(cpu);
	return READ_ONCE(desc->action);
}

struct irqaction *harness_next(struct irq_desc *desc, struct irqaction *action)
{
	struct board_line *line = line_of(desc);
	struct actor *cpu = current_of('c');
	struct irqaction *next = READ_ONCE(action->next);

	if (!line || !cpu)
		return next;
	emit_state(line);
	if (cpu->past_gate) {
		cpu->past_gate = false;
	} else if (next || !has_word(WORD_NOTE_FIRST)) {
		pass_gate(cpu, GATE_NEXT);
		if (!has_word(WORD_NEXT_FIRST))
			next = READ_ONCE(action->next);
	} else {
		cpu->note_gate = true;
	}
	if (!next)
		end_walk(cpu);
	return next;
}

void harness_entry(struct irqaction *action)
{
	struct actor *cpu = current_of('c');
	struct board_device *device = action->dev_id;

	if (!cpu)
		return;
	cpu->handler = device;
	begin_run(device, PART_HANDLER);
	device->line->runs++;
	emit_row(cpu->line, "c%d begin %d", cpu->no, device->no);
	pass_gate(cpu, GATE_RETURN);
}

void harness_exit(struct irqaction *action, int answer)
{
	struct actor *cpu = current_of('c');
	struct board_device *device = action->dev_id;
	u32 served;

	if (!cpu)
		return;
	served = end_run(device, PART_HANDLER);
	emit_row(cpu->line, "c%d return %d %s %u", cpu->no, device->no,
		 answer == IRQ_WAKE_THREAD ? "wake" : answer == IRQ_HANDLED ? "handled" : "nothing",
		 served);
	cpu->handler = NULL;
}

/*
 * In __irq_wake_thread(): threads_oneshot is loaded, and not stored yet. A handler's
 * wake holds no lock there, so what another processor stores meanwhile is lost.
 */
unsigned long harness_load(struct irq_desc *desc)
{
	unsigned long bits = desc->threads_oneshot;
	struct actor *cpu = current_of('c');

	if (cpu && !cpu->call && has_word(WORD_LOAD_FIRST)) {
		emit_state(cpu->line);
		pass_gate(cpu, GATE_NEXT);
		cpu->past_gate = true;
	}
	return bits;
}

/* In __irq_wake_thread(): RUNTHREAD is set, and threads_active isn't raised yet. */
void harness_wake_gate(void)
{
	struct actor *cpu = current_of('c');

	if (!cpu || cpu->call || !has_word(WORD_WAKE_FIRST))
		return;
	emit_state(cpu->line);
	pass_gate(cpu, GATE_NEXT);
	cpu->past_gate = true;
}

irqreturn_t board_primary(int virq, void *cookie)
{
	static const irqreturn_t returns[ANSWERS] = {
		IRQ_NONE, IRQ_HANDLED, IRQ_WAKE_THREAD, IRQ_HANDLED,
	};
	struct board_device *device = cookie;
	struct actor *cpu = current_of('c');

	if (device < the_board->devices || device >= the_board->devices + the_board->device_count)
		return IRQ_NONE;	/* the poll finds a line of an earlier board */
	if (cpu) {
		make_run_calls(cpu, device, PART_HANDLER);
	} else {
		/* the poll of spurious.c, or the kernel's own tasklet: no entry of a log */
		begin_run(device, PART_HANDLER);
		emit("# outside of the log: line %d, handler %d, %u served", device->line->no, device->no,
		     end_run(device, PART_HANDLER));
	}
	if (!irqs_disabled())
		emit("H handler %d with interrupts on", device->no);
	return returns[device->runs[PART_HANDLER].answer];
}

irqreturn_t board_thread(int virq, void *cookie)
{
	struct board_device *device = cookie;
	struct actor *thread = &device->thread;
	bool handled;
	u32 served;

	begin_run(device, PART_THREAD);
	handled = device->runs[PART_THREAD].answer != ANSWER_NOTHING;
	device->line->threads++;
	emit_row(device->line, "t%d begin", device->no);
	pass_gate(thread, GATE_THREAD);
	make_run_calls(thread, device, PART_THREAD);
	served = end_run(device, PART_THREAD);
	emit_row(device->line, "t%d return %u%s", device->no, served,
		 handled == !!served ? "" : handled ? " handled" : " nothing");
	return handled ? IRQ_HANDLED : IRQ_NONE;
}

/* ---------------------------------------------------------- spurious.c */

#undef note_interrupt

/*
 * Whether a note counted. With a window of 1 the counts are 0 before and after
 * each note; then last_unhandled tells, which was set to another time before.
 */
static bool has_counted(struct irq_desc *desc, unsigned int count, unsigned int unhandled)
{
	if (harness_window == 1)
		return desc->last_unhandled == harness_jiffies;
	return desc->irq_count == count + 1 ||
	       (!desc->irq_count && count + 1 == harness_window && (count || unhandled));
}

void harness_note(struct irq_desc *desc, irqreturn_t answer)
{
	struct board_line *line = line_of(desc);
	unsigned int count = desc->irq_count, unhandled = desc->irqs_unhandled;
	unsigned long last_unhandled = desc->last_unhandled;
	unsigned int depth = desc->depth;
	struct actor *cpu = current_of('c');
	bool counted;

	if (!line) {
		note_interrupt(desc, answer);
		return;
	}
	harness_jiffies = (u64)line->now * harness_hz / 1000;
	if (harness_window == 1)
		desc->last_unhandled = harness_jiffies - 1;
	note_interrupt(desc, answer);
	counted = has_counted(desc, count, unhandled);
	if (harness_window == 1 && !counted)
		desc->last_unhandled = last_unhandled;
	if (desc->depth == depth + 1 && (desc->istate & IRQS_SPURIOUS_DISABLED))
		line->note = "killed";
	else
		line->note = counted ? "counted" : "quiet";
	if (cpu && cpu->note_gate) {
		cpu->note_gate = false;
		pass_gate(cpu, GATE_NEXT);
		line->unmasks = 0;
	}
}

void harness_mod_timer(struct timer_list *timer, unsigned long at)
{
	if (!poll_timer)
		emit_trace("the timer of the poll is armed");
	poll_timer = timer;
}

/* What the timer of the poll does, at once. */
void run_poll(void)
{
	emit("# outside of the log: a poll of killed lines");
	if (!poll_timer)
		return;
	local_bh_disable();
	poll_timer->function(poll_timer);
	local_bh_enable();
}

/* ------------------------------------------------------------ resend.c */

void harness_tasklet(struct tasklet_struct *tasklet)
{
	struct actor *actor = current_actor();

	resend_tasklet = tasklet;
	if (actor && actor->line)
		actor->line->scheduled = true;
	if (has_word(WORD_REAL_SOFT)) {
		emit("# outside of the log: line %d, tasklet scheduled on processor %d",
		     actor && actor->line ? actor->line->no : 0, raw_smp_processor_id());
		tasklet_schedule(tasklet);
	} else if (actor && actor->line) {
		actor->line->soft = true;
	} else {
		emit("H a soft resend by nobody");
	}
}

/* Until the kernel's own tasklet has run, so that the rows have one order. */
void wait_for_tasklet(void)
{
	while (has_word(WORD_REAL_SOFT) && resend_tasklet &&
	       (resend_tasklet->state & (BIT(TASKLET_STATE_SCHED) | BIT(TASKLET_STATE_RUN))))
		msleep(1);
}

bool harness_resend_empty(unsigned long *map, int count)
{
	if (has_word(WORD_REAL_SOFT))
		return bitmap_empty(map, count);
	return resend_virq < 0;
}

int harness_resend_pick(unsigned long *map, int count)
{
	int virq = resend_virq;

	if (has_word(WORD_REAL_SOFT))
		return find_first_bit(map, count);
	resend_virq = -1;
	if (!test_bit(virq, map))
		emit("H the resend bit of virq %d doesn't stand", virq);
	return virq;
}

struct irq_desc *harness_resend_desc(int virq)
{
	struct actor *cpu = current_of('c');

	if (cpu && has_word(WORD_RESEND_FIRST)) {
		the_board->moves++;
		pass_gate(cpu, GATE_RESEND);
		cpu->busy = irqd_irq_inprogress(&cpu->line->desc->irq_data);
	}
	return irq_to_desc(virq);
}

void forget_resends(void)
{
	resend_virq = -1;
	poll_timer = NULL;
}

/* A waiting move is made at the next take, whatever its answer, and enabled or not. */
static void move_at_take(struct board_line *line)
{
	if (line->later && has_rule(RULE_MOVE_EACH_TAKE)) {
		raw_spin_lock(&line->desc->lock);
		irq_move_masked_irq(&line->desc->irq_data);
		raw_spin_unlock(&line->desc->lock);
	}
}

static void take_resend(struct board_line *line)
{
	line->soft = false;
	resend_virq = line->virq;
	if (resend_tasklet->use_callback)
		resend_tasklet->callback(resend_tasklet);
	else
		resend_tasklet->func(resend_tasklet->data);
}

static void take_line(struct board_line *line)
{
	struct cell *cell = &line->cell;

	if (!cell->edge && cell->serves)
		cell->in_service = true;
	/* what a fast-KIND_EOI controller does when its interrupt number is read */
	if (line->fast_edges)
		cell->sent = false;
	generic_handle_domain_irq(line->domain->domain, line->number);
}

/* One take of a line by a processor, to the end of its flow handler. */
void run_take(struct actor *cpu)
{
	struct board_line *line = cpu->line;

	cpu->began = false;
	cpu->ending = false;
	cpu->note_gate = false;
	cpu->past_gate = false;
	cpu->busy = irqd_irq_inprogress(&line->desc->irq_data);
	emit_trace("processor %d takes line %d, %s", cpu->no, line->no,
		   cpu->resend ? "a soft resend" : "its signal");
	local_irq_disable();
	move_at_take(line);
	if (cpu->resend)
		take_resend(line);
	else
		take_line(line);
	local_irq_enable();
	if (cpu->began) {
		emit_end(cpu, false);
	} else {
		emit_row(line, "c%d take %s %s", cpu->no, cpu->resend ? "resend" : "line",
			 cpu->busy ? "busy" : "off");
		line->takes++;
		if (!cpu->busy)
			note_off(line);
	}
	emit_state(line);
}

/* ----------------------------------------------------------- irqdesc.c */

/* The least virq that the architecture gives; x86 has one whatever is asked for. */
unsigned int harness_lower_bound(unsigned int from)
{
	return harness_floor ? arch_dynirq_lower_bound(from) : from;
}
