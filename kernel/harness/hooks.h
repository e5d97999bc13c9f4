/* SPDX-License-Identifier: GPL-2.0 */
/*
 * Included before the text of manage.c, handle.c, resend.c, spurious.c and
 * irqdesc.c of kernel/irq, and of the harness.
 *
 * A gate is a place at which an actor stops until it is told to go on. The
 * macros below put one where the kernel waits, and where it goes from one step
 * to the next without a lock. In whoever isn't an actor of the harness each of
 * them does what stood there before.
 */
#ifndef GENIRQ_HARNESS_HOOKS_H
#define GENIRQ_HARNESS_HOOKS_H
#ifndef __ASSEMBLY__

#ifdef HARNESS_MANAGE
#define pr_fmt(fmt) "genirq: " fmt	/* as manage.c has it */
#endif

#include <linux/irq.h>

/* Settings whose names settings.h takes away. */
enum {
	SETTING_UNLAZY = IRQ_DISABLE_UNLAZY,
	SETTING_PROCESS_CONTEXT = IRQ_MOVE_PCNTXT,
	SETTING_NOAUTOEN = IRQ_NOAUTOEN,
	SETTING_POLLED = IRQ_IS_POLLED,
	SETTING_UNBALANCED = IRQ_NO_BALANCING,
};

#include <linux/kthread.h>
#include <linux/module.h>
#include <linux/random.h>
#include <linux/interrupt.h>
#include <linux/irqdomain.h>
#include <linux/slab.h>
#include <linux/sched.h>
#include <linux/sched/rt.h>
#include <linux/sched/task.h>
#include <linux/sched/isolation.h>
#include <uapi/linux/sched/types.h>
#include <linux/task_work.h>
#include <linux/kernel_stat.h>
#include <linux/jiffies.h>
#include <linux/timer.h>
#include <linux/wait.h>
#include <linux/mutex.h>
#include <linux/pm_runtime.h>
#include <linux/irqdesc.h>
#include <asm/irq_regs.h>
#ifdef HARNESS_HANDLE
#include <trace/events/irq.h>
#endif
#include "internals.h"

bool harness_cpu_relax(void);
void harness_mutex_lock(struct mutex *mutex);
void harness_mutex_unlock(struct mutex *mutex);
bool harness_is_sync(void);
void harness_sync_gate(struct irq_desc *desc, bool first);
void harness_synced(void);
bool harness_should_stop(struct irqaction *action);
void harness_kthread_stop(struct task_struct *task);
void harness_bus_lock(struct irq_desc *desc);
void harness_bus_unlock(struct irq_desc *desc);
void harness_done_gate(void);
struct irqaction *harness_first(struct irq_desc *desc);
struct irqaction *harness_next(struct irq_desc *desc, struct irqaction *action);
void harness_entry(struct irqaction *action);
void harness_exit(struct irqaction *action, int answer);
void harness_wake_gate(void);
unsigned long harness_load(struct irq_desc *desc);
void harness_note(struct irq_desc *desc, irqreturn_t answer);
void harness_tasklet(struct tasklet_struct *tasklet);
bool harness_resend_empty(unsigned long *map, int count);
int harness_resend_pick(unsigned long *map, int count);
struct irq_desc *harness_resend_desc(int virq);
unsigned int harness_lower_bound(unsigned int from);
void harness_mod_timer(struct timer_list *timer, unsigned long at);

extern bool harness_floor;
extern unsigned long harness_jiffies;
extern unsigned int harness_hz;
extern unsigned int harness_window;
extern unsigned int harness_limit;

#ifdef HARNESS_MANAGE
#undef cpu_relax
#define cpu_relax()			do { if (!harness_cpu_relax()) rep_nop(); } while (0)
#undef mutex_lock
#define mutex_lock(m)			harness_mutex_lock(m)
#define mutex_unlock(m)			harness_mutex_unlock(m)
#define kthread_should_stop()		harness_should_stop(action)
#define kthread_stop(t)			harness_kthread_stop(t)
#define chip_bus_lock(d)		harness_bus_lock(d)
#define chip_bus_sync_unlock(d)		harness_bus_unlock(d)
#undef atomic_dec_and_test
#define atomic_dec_and_test(v)		({ harness_done_gate(); arch_atomic_dec_and_test(v); })
#undef wait_event
#define wait_event(wq, condition)					\
do {									\
	if (harness_is_sync()) {					\
		harness_sync_gate(desc, true);				\
		while (!(condition))					\
			harness_sync_gate(desc, false);			\
		harness_synced();					\
	}								\
	might_sleep();							\
	if (!(condition))						\
		__wait_event(wq, condition);				\
} while (0)
#endif

#ifdef HARNESS_HANDLE
#undef for_each_action_of_desc
#define for_each_action_of_desc(desc, act) \
	for (act = harness_first(desc); act; act = harness_next(desc, act))
#define trace_irq_handler_entry(irq, action)		harness_entry(action)
#define trace_irq_handler_exit(irq, action, answer)	harness_exit(action, answer)
#define note_interrupt(desc, answer)			harness_note(desc, answer)
#undef atomic_inc
#define atomic_inc(v)			do { harness_wake_gate(); arch_atomic_inc(v); } while (0)
/* its one |= in two: what it loads, with a gate, and what it stores */
#define threads_oneshot	threads_oneshot = harness_load(desc), desc->threads_oneshot
#endif

#ifdef HARNESS_RESEND
#define tasklet_schedule(t)		harness_tasklet(t)
#define bitmap_empty(map, count)	harness_resend_empty(map, count)
#undef find_first_bit
#define find_first_bit(map, count)	harness_resend_pick(map, count)
#define irq_to_desc(virq)		harness_resend_desc(virq)
#endif

#ifdef HARNESS_IRQDESC
#define arch_dynirq_lower_bound(from)	harness_lower_bound(from)
#endif

#ifdef HARNESS_SPURIOUS
#undef jiffies
#define jiffies				harness_jiffies
#undef HZ
#define HZ				harness_hz
#define mod_timer(timer, at)		harness_mod_timer(timer, at)
#define HARNESS_WINDOW			harness_window
#define HARNESS_LIMIT			harness_limit
#endif

#endif
#endif
