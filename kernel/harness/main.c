// SPDX-License-Identifier: GPL-2.0
/*
 * Plays the boards that come where an initramfs would: one or more, each behind a
 * text line "%%% NAME". See rows.c for what is printed, and kernel/README.md.
 */
#include <linux/delay.h>
#include <linux/init.h>
#include <linux/initrd.h>
#include <linux/io.h>
#include <linux/utsname.h>
#include <linux/vmalloc.h>
#include "harness.h"

struct board *the_board;
static char *boards;

static void new_board(void)
{
	struct board *board = vzalloc(sizeof(*board));

	board->cpus = 1;
	board->log = 10000;
	board->rows = U32_MAX;
	board->picks = vzalloc(array_size(MAX_PICKS, sizeof(struct board_pick)));
	harness_hz = 1000;
	harness_window = 100000;
	harness_limit = 99900;
	cpumask_setall(irq_default_affinity);
	forget_resends();
	smp_mb();	/* whoever finds the new board finds what it holds */
	the_board = board;
}

static int lowest_free_virq(void)
{
	int virq = irq_alloc_desc(NUMA_NO_NODE);

	irq_free_desc(virq);
	return virq;
}

static void lay_out(void)
{
	struct board *board = the_board;
	int i;

	board->first_virq = lowest_free_virq();
	for (i = 0; i < board->domain_count; i++)
		if (make_domain(&board->domains[i]))
			emit("F domain %s can't be made", board->domains[i].name);
	for (i = 0; i < board->line_count; i++)
		make_line(&board->lines[i]);
	for (i = 0; i < board->line_count; i++) {
		struct board_line *line = &board->lines[i];

		if (line->refused)
			emit("# irq %d refused %s", line->no, line->why);
		else
			emit("# irq %d virq %d%s", line->no, line->virq - board->first_virq + 1,
			     line->path);
	}
}

static const char *left_as(struct board_line *line)
{
	if (line->refused || !line->desc->action)
		return "stopped";
	return irqd_irq_disabled(&line->desc->irq_data) ? "disabled" : "enabled";
}

static void emit_summary(void)
{
	int i;

	for (i = 0; i < the_board->line_count; i++) {
		struct board_line *line = &the_board->lines[i];

		emit("S line %d entries %u asks %u takes %u runs %u threads %u served %u %s",
		     line->no, line->entries, line->asks, line->takes, line->runs, line->threads,
		     line->served, left_as(line));
	}
	emit("S total entries %u", the_board->total);
}

static void free_runs(struct board_device *device)
{
	int part;

	for (part = 0; part < PARTS; part++) {
		kfree(device->runs[part].script.calls);
		vfree(device->runs[part].answers);
	}
}

static void run_board(char *text)
{
	int i;

	emit("=== %s", strsep(&text, "\n"));
	new_board();
	read_board(text);
	noirqdebug = has_word(WORD_NO_DEBUG);
	console_loglevel = the_board->trace ? CONSOLE_LOGLEVEL_DEBUG : LOGLEVEL_WARNING;
	if (the_board->cpus > num_online_cpus())
		emit("F the board has %d processors, the machine %d", the_board->cpus,
		     num_online_cpus());
	if (the_board->domain_calls)
		call_domains();
	lay_out();
	if (the_board->vectors)
		take_events();
	if (the_board->sleeps)
		add_sleep();
	play_board();
	emit_summary();
	emit("=== end");
	/* Whoever is at a gate stays there for ever, and reads none of these again. */
	vfree(the_board->picks);
	for (i = 0; i < the_board->driver_count; i++)
		vfree(the_board->drivers[i].script.calls);
	for (i = 0; i < the_board->device_count; i++)
		free_runs(&the_board->devices[i]);
}

/* Before the initramfs's own code takes the memory back. */
static int __init keep_boards(void)
{
	size_t count = initrd_end - initrd_start;

	register_output();
	if (!initrd_start || initrd_end <= initrd_start)
		return 0;
	boards = vmalloc(count + 1);
	memcpy(boards, (void *)initrd_start, count);
	boards[count] = 0;
	return 0;
}
fs_initcall(keep_boards);

static int run_boards(void *unused)
{
	char *text = boards, *next;

	emit("H Linux %s, %d processors", init_utsname()->release, num_online_cpus());
	while (text && (text = strstr(text, "%%% "))) {
		text += 4;
		next = strstr(text, "\n%%% ");
		if (next)
			*next++ = 0;
		run_board(text);
		text = next;
	}
	emit("H done");
	outb(0x10, 0xf4);	/* qemu's isa-debug-exit: it ends with status 33 */
	for (;;)
		msleep(1000);
	return 0;
}

static int __init start_harness(void)
{
	struct task_struct *task = kthread_create(run_boards, NULL, "harness");

	set_cpus_allowed_ptr(task, cpumask_of(0));
	wake_up_process(task);
	msleep(24 * 3600 * 1000);
	return 0;
}
late_initcall(start_harness);
