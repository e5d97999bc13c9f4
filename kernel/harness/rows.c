// SPDX-License-Identifier: GPL-2.0
/*
 * What the harness prints, byte by byte at port 0xe9, where qemu has its debug
 * console. The first letter of each row says what it is:
 *   R a row of the log          # a row of the layout, or a remark beside the log
 *   S a row of the summary      T the trace: calls of chips, states, gates
 *   K what the kernel printed   H a remark of the harness
 *   F a fault: this board can't be played to its end
 */
#include <linux/console.h>
#include <linux/io.h>
#include "harness.h"

static DEFINE_RAW_SPINLOCK(output_lock);

static void put_bytes(const char *bytes, size_t count)
{
	asm volatile("rep outsb" : "+S"(bytes), "+c"(count) : "d"((u16)0xe9) : "memory");
}

static void put_row(const char *prefix, const char *format, va_list args)
{
	char text[PATH_BYTES + 160];
	unsigned long flags;
	int count;

	count = scnprintf(text, sizeof(text), "%s", prefix);
	count += vscnprintf(text + count, sizeof(text) - count - 1, format, args);
	text[count++] = '\n';
	raw_spin_lock_irqsave(&output_lock, flags);
	put_bytes(text, count);
	raw_spin_unlock_irqrestore(&output_lock, flags);
}

void emit(const char *format, ...)
{
	va_list args;

	va_start(args, format);
	put_row("", format, args);
	va_end(args);
}

void emit_trace(const char *format, ...)
{
	va_list args;

	if (!the_board || !the_board->trace)
		return;
	va_start(args, format);
	put_row("T ", format, args);
	va_end(args);
}

/* A row of the log. Where the line's log is full it isn't printed, and the play ends. */
void emit_row(struct board_line *line, const char *format, ...)
{
	char prefix[16];
	va_list args;

	if (line->entries >= the_board->log) {
		the_board->full = line;
		return;
	}
	line->entries++;
	the_board->total++;
	scnprintf(prefix, sizeof(prefix), "R %d ", line->no);
	va_start(args, format);
	put_row(prefix, format, args);
	va_end(args);
}

void emit_end(struct actor *cpu, bool again)
{
	struct board_line *line = cpu->line;

	again |= line->sent_again;
	emit_row(line, "c%d end %s %s %s", cpu->no, again ? "again" : "leave",
		 line->unmasks ? "unmask" : "asis", line->note);
	cpu->ending = false;
}

void emit_state(struct board_line *line)
{
	struct irq_desc *desc = line->desc;
	struct cell *cell = &line->cell;
	struct irq_data *data;

	if (!the_board->trace || !desc)
		return;
	data = &desc->irq_data;
	emit_trace("line %d depth %u%s%s%s%s%s%s%s%s%s bits %lx active %d", line->no, desc->depth,
		   irqd_irq_disabled(data) ? " DISABLED" : "",
		   irqd_irq_masked(data) ? " MASKED" : "",
		   irqd_is_started(data) ? " STARTED" : "",
		   irqd_is_activated(data) ? " ACTIVATED" : "",
		   irqd_irq_inprogress(data) ? " INPROGRESS" : "",
		   desc->istate & IRQS_PENDING ? " PENDING" : "",
		   desc->istate & IRQS_REPLAY ? " REPLAY" : "",
		   desc->istate & IRQS_ONESHOT ? " ONESHOT" : "",
		   desc->istate & IRQS_SPURIOUS_DISABLED ? " SPURIOUS" : "",
		   desc->threads_oneshot, atomic_read(&desc->threads_active));
	emit_trace("line %d cell%s%s%s%s%s count %u unhandled %u handled %d last %x target %d",
		   line->no, cell->masked ? " masked" : "", cell->stored ? " stored" : "",
		   cell->sent ? " sent" : "", cell->high ? " high" : "",
		   cell->in_service ? " in-service" : "", desc->irq_count, desc->irqs_unhandled,
		   atomic_read(&desc->threads_handled), desc->threads_handled_last, line->target);
	if (irqd_irq_disabled(data) != (desc->depth > 0))
		emit_trace("line %d: depth and DISABLED differ", line->no);
	if (irqd_irq_masked(data) != cell->masked)
		emit_trace("line %d: MASKED and the cell differ", line->no);
}

static void write_console(struct console *console, const char *text, unsigned int count)
{
	static bool in_row;
	unsigned long flags;
	unsigned int i;

	raw_spin_lock_irqsave(&output_lock, flags);
	for (i = 0; i < count; i++) {
		if (!in_row)
			put_bytes("K ", 2);
		put_bytes(text + i, 1);
		in_row = text[i] != '\n';
	}
	raw_spin_unlock_irqrestore(&output_lock, flags);
}

static struct console output_console = {
	.name = "harness",
	.write = write_console,
	.flags = CON_ENABLED | CON_PRINTBUFFER,
	.index = -1,
};

void register_output(void)
{
	register_console(&output_console);
}
