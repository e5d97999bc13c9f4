// SPDX-License-Identifier: GPL-2.0
/*
 * A board that is put to sleep and wakes: who moves while the system's driver makes
 * its disables, while the machine is asleep, and while that driver makes its enables.
 * The order is genirq's (section 28 of docs/DEFINITIONS.md); each step is the kernel's.
 */
#include "harness.h"

#define SYSTEM_DRIVER	65535

/* Behind all drivers of the board stands one more. */
struct actor *add_system_driver(void)
{
	return new_driver(SYSTEM_DRIVER);
}

void add_sleep(void)
{
	struct actor *driver = add_system_driver();
	int i;

	for (i = 0; i < the_board->line_count; i++)
		add_call(driver, CALL_DISABLE, &the_board->lines[i], 0);
	for (i = 0; i < the_board->line_count; i++)
		add_call(driver, CALL_ENABLE, &the_board->lines[i], 0);
}

/* A driver has made a disable. */
void note_down(struct actor *driver, struct board_line *line)
{
	line->down |= driver->letter == 'd' && driver->no == SYSTEM_DRIVER;
}

/* A take was answered off: the first of an armed line that is down wakes. */
void note_off(struct board_line *line)
{
	if (line->armed && line->down && !the_board->woken_by)
		the_board->woken_by = line;
}

static bool step_ask(struct actor *system)
{
	struct actor *driver;

	for (driver = the_board->drivers; driver != system; driver++)
		if (is_next(driver, CALL_ASK))
			return step(driver);
	return false;
}

/* What stands between the picks and the play as usual. */
void play_sleep(void)
{
	struct actor *system = &the_board->drivers[the_board->driver_count - 1];

	while (goes_on() && is_next(system, CALL_DISABLE))
		if (!step(system) && !step_inner())
			break;
	if (!goes_on())
		return;
	emit("# asleep");
	while (goes_on() && !the_board->woken_by && (step_inner() || step_ask(system)))
		cond_resched();
	if (!goes_on())
		return;
	if (the_board->woken_by)
		emit("# wake %d", the_board->woken_by->no);
	else
		emit("# wake none");
	while (goes_on() && is_next(system, CALL_ENABLE) && step(system))
		cond_resched();
}
