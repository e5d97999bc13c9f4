// SPDX-License-Identifier: GPL-2.0
/*
 * Where a play ends while somebody isn't done: who waits, for what, and for whom. A
 * run that waits for itself is among them; it stands at its gate for ever.
 */
#include "harness.h"

#define WAIT_BYTES	128

static void add_actor(char *whom, struct actor *actor)
{
	size_t count = strlen(whom);

	scnprintf(whom + count, WAIT_BYTES - count, " %c%d", WHO(actor));
}

static void add_flow(char *whom, struct board_line *line)
{
	int i;

	for (i = 0; i < the_board->cpus; i++) {
		struct actor *cpu = &the_board->processors[i];

		if (cpu->gate != GATE_IDLE && cpu->line == line)
			add_actor(whom, cpu);
	}
}

static bool is_at_work(struct actor *thread)
{
	if (thread->state == STOPS_THREAD)
		return true;
	return thread->state == AT_GATE && (thread->gate != GATE_BEGIN || was_woken(thread));
}

static void add_threads(char *whom, struct board_line *line)
{
	int i;

	for (i = 0; i < the_board->device_count; i++)
		if (the_board->devices[i].line == line && is_at_work(&the_board->devices[i].thread))
			add_actor(whom, &the_board->devices[i].thread);
}

static void add_owner(char *whom, struct mutex *mutex)
{
	unsigned long owner = atomic_long_read(&mutex->owner) & ~7UL;
	int i;

	for (i = 0; i < the_board->device_count; i++)
		if ((unsigned long)the_board->devices[i].thread.task == owner)
			add_actor(whom, &the_board->devices[i].thread);
	for (i = 0; i < the_board->driver_count; i++)
		if ((unsigned long)the_board->drivers[i].task == owner)
			add_actor(whom, &the_board->drivers[i]);
}

/* What the actor waits for, and for whom; NULL if it is done. */
static const char *what_for(struct actor *actor, char *whom)
{
	struct board_line *line = actor->line;

	if (actor->state == STOPS_THREAD) {
		add_actor(whom, &actor->call->device->thread);
		return "freed";
	}
	if (actor->state != AT_GATE)
		return NULL;
	switch (actor->gate) {
	case GATE_SPIN:
		add_flow(whom, line);
		return "hardclear";
	case GATE_WAIT:
	case GATE_FINISH:
		add_flow(whom, line);
		return "finish";
	case GATE_SYNCED:
		add_threads(whom, line);
		return "synced";
	case GATE_MUTEX:
		add_owner(whom, &line->desc->request_mutex);
		return actor->call->op == CALL_FREE ? "unlink" : "request";
	default:
		return NULL;
	}
}

static void emit_wait(struct actor *actor)
{
	char whom[WAIT_BYTES] = "";
	const char *what = what_for(actor, whom);

	if (what)
		emit("# waits %d %c%d %s%s", actor->line->no, WHO(actor), what, whom);
}

/* Threads before processors, those before drivers. */
void emit_waits(void)
{
	int i;

	for (i = 0; i < the_board->device_count; i++)
		emit_wait(&the_board->devices[i].thread);
	for (i = 0; i < the_board->cpus; i++)
		emit_wait(&the_board->processors[i]);
	for (i = 0; i < the_board->driver_count; i++)
		emit_wait(&the_board->drivers[i]);
}
