/* SPDX-License-Identifier: GPL-2.0 */
/*
 * The board that is played, its actors, and what the files of the harness call
 * in each other.
 */
#ifndef GENIRQ_HARNESS_H
#define GENIRQ_HARNESS_H

#include <linux/kernel.h>

#define MAX_CPUS	32
#define MAX_DOMAINS	32
#define MAX_LINES	64
#define MAX_DEVICES	256
#define MAX_DRIVERS	64
#define MAX_CALLS	(16384 + 4096)
#define MAX_PICKS	65536
#define MAX_EVENTS	64
#define MAX_RUN_CALLS	16
#define MAX_ANSWERS	4096
#define PATH_BYTES	320

enum domain_kind {
	KIND_LATCH, KIND_PLAIN, KIND_LEVEL, KIND_EOI, KIND_LPI, KIND_VECTOR, KIND_PIN,	/* roots */
	KIND_MSI, KIND_REMAP,								/* children */
	DOMAIN_KINDS
};

enum device_kind {
	DEVICE_DIRECT, DEVICE_CHECK, DEVICE_NULL, DEVICE_STUCK, DEVICE_ODD, DEVICE_TOLD,
	DEVICE_KINDS
};

/* What of a device's driver runs for an interrupt. */
enum part { PART_HANDLER, PART_THREAD, PARTS };

/* What a run answers. One that claims is handled too, and serves nothing. */
enum answer { ANSWER_NOTHING, ANSWER_HANDLED, ANSWER_WAKE, ANSWER_CLAIMS, ANSWERS };

/* Rules of genirq that aren't the kernel's. A board's profile puts them on top. */
enum rule {
	RULE_UNLINKED_ENABLE,	/* an enable while nothing is linked is unbalanced */
	RULE_DEPTH_ONE,		/* the depth after the last unlink is 1 */
	RULE_UNLAZY_STAYS,	/* the last free leaves unlazy as it is */
	RULE_REFUSE_LATER,	/* SHARED with NO_AUTOEN is refused once the mutex is free */
	RULE_EMPTY_MASK,	/* a mask without a processor is refused on each line */
	RULE_MOVE_EACH_TAKE,	/* a waiting move is made at the next take, whatever its answer */
	RULE_FAST_EOI_RESEND,	/* a fast-KIND_EOI edge line resends what came during a flow */
	RULE_FAST_EOI_OPEN,	/* a one-shot fast-KIND_EOI edge line isn't masked at a take */
	RULE_LEAVE_FULL_MASK,	/* a line whose mask has no vector goes to another processor */
	RULE_KEEP_MASK,		/* a line's mask stays when a processor goes offline */
	RULES
};

/* Words of a board that hold for the whole of it. */
enum word {
	WORD_NEXT_FIRST,	/* the walk reads its next action before the gate */
	WORD_NOTE_FIRST,	/* the gate before the end stands after the note */
	WORD_RESEND_FIRST,	/* a gate between the clear of the resend bit and the flow */
	WORD_MASK_FIRST,	/* the chips have no irq_mask_ack */
	WORD_REAL_SOFT,		/* the kernel's own tasklet makes the soft resends */
	WORD_NO_AFFINITY,	/* the chips have no irq_set_affinity */
	WORD_NO_DEBUG,		/* as booted with noirqdebug */
	WORD_ONESHOT_SAFE,	/* the chips have IRQCHIP_ONESHOT_SAFE */
	WORD_IRQ_DISABLE,	/* the chips have irq_disable and irq_enable */
	WORD_WAKE_FIRST,	/* the gate after a handler that wakes stands within the wake */
	WORD_LOAD_FIRST,	/* the same gate stands between load and store of threads_oneshot */
	WORD_SENT_STAYS,	/* a sent edge stays with the processor of the moment */
	WORDS
};

enum gate {
	GATE_SCRIPT,	/* a driver before its next call */
	GATE_HARDCLEAR,	/* a caller before it looks whether a flow is in progress */
	GATE_SPIN,	/* one is */
	GATE_SYNCED,	/* before it looks whether threads are at work */
	GATE_FREED,	/* before it gives the request mutex back */
	GATE_MUTEX,	/* another has the request mutex */
	GATE_IDLE,	/* a processor outside of a flow */
	GATE_NEXT,	/* before it takes the next action of the walk, or ends */
	GATE_RETURN,	/* in a primary handler, before its next call or its return */
	GATE_RESEND,	/* between the clear of the resend bit and the flow */
	GATE_BEGIN,	/* a thread before it looks whether it was woken */
	GATE_THREAD,	/* in the thread function, likewise */
	GATE_FINISH,	/* before irq_finalize_oneshot takes the lock */
	GATE_WAIT,	/* it found a flow in progress */
	GATE_DONE,	/* before threads_active is counted down */
	GATES
};

enum actor_state { ABSENT, RUNS, AT_GATE, STOPS_THREAD, DEAD };

/* Calls, in order. */
struct script {
	struct board_call *calls;
	int count, most;
};

struct actor {
	char letter;			/* c, d or t */
	int no;
	enum actor_state state;
	enum gate gate;
	bool go;			/* it may pass its gate */
	struct task_struct *task;
	wait_queue_head_t wait;
	struct board_line *line;	/* of the take, of the call, or of the thread's device */
	struct board_call *call;	/* that it makes, also within a run */
	/* processors */
	bool resend;			/* the take is a soft resend */
	bool busy;			/* a flow was in progress at the take */
	bool began;			/* the take was handled */
	bool ending;			/* the walk is over */
	bool note_gate;			/* the gate stands after the note */
	bool past_gate;			/* the gate after the handler is passed */
	struct board_device *handler;
	/* drivers */
	struct script script;
	int pos;
	/* whoever makes a call */
	bool unlinked;			/* the free took the device out of the list */
	bool cleared;			/* and found no flow in progress */
	bool syncs, was_there, was_linked, had_spurious;
	unsigned int depth_before;
	/* threads */
	struct board_device *device;
	struct actor *stopper;		/* who waits for its end */
};

/* How an actor is called in a row: "%c%d". */
#define WHO(actor)	(actor)->letter, (actor)->no

struct board_domain {
	char name[20];
	enum domain_kind kind;
	u32 size;
	bool tree;
	struct board_domain *parent;
	struct irq_domain *domain;
	struct irq_chip chip;
	u32 used[2 * MAX_LINES];	/* the numbers that are given */
	int used_count;
};

/* What a line's chips keep of its signal. */
struct cell {
	bool edge, keeps, recalls, retriggers, serves;
	bool masked, stored, sent, high, in_service;
	int sent_to;			/* the target when it was sent */
};

struct board_line {
	int no;
	struct board_domain *domain;
	u32 number, mask;
	bool unlazy, later, fast_edges;
	bool on_activate, no_autoen, polled, untyped, enforced, unaimed, unbalanced;
	bool refused, soft;
	const char *why;
	struct cell cell;
	int virq;
	struct irq_desc *desc;
	int target;
	int place, vector, aimed;	/* while processors go; aimed: where the last move goes */
	struct irq_affinity_notify notify;
	bool armed, down;		/* in a sleep: it may wake; it was disabled for it */
	u32 busy_moves;			/* so many moves the chip answers with EBUSY */
	int unmasks;			/* calls of irq_unmask since the end began */
	bool sent_again;		/* at this end, by the rule on fast-EOI edge lines */
	bool retriggered, scheduled;	/* in this call, by the chip or by software */
	const char *note;
	u32 now;			/* milliseconds */
	u32 entries, asks, takes, runs, threads, served;
	char path[PATH_BYTES];
};

/* What a told device answers, so often. */
struct board_answer {
	enum answer answer;
	u32 times;
};

/* The runs of a part of a device. */
struct board_run {
	struct script script;		/* what each of them calls */
	struct board_answer *answers;	/* of a told device, in turn */
	int answer_count;
	u32 begun;			/* so many have begun */
	enum answer answer;		/* of the last that began */
	u32 at_begin;			/* the asks that it serves, if it serves */
};

struct board_device {
	int no;
	struct board_line *line;
	enum device_kind kind;
	bool held, forgets;
	bool quiet;			/* its own interrupt enable is off */
	u32 open;			/* asks that aren't served */
	struct board_run runs[PARTS];
	struct actor thread;
	char name[12];
};

enum call_op {
	CALL_REQUEST, CALL_FREE, CALL_ASK, CALL_QUIET, CALL_ARM, CALL_SERVE,
	CALL_WAKE,						/* of a device */
	CALL_DISABLE, CALL_DISABLE_NOSYNC, CALL_ENABLE, CALL_SYNC, CALL_SYNC_HARD,
	CALL_DISABLE_HARD, CALL_AFFINITY, CALL_MOMENT, CALL_BUSY,	/* of a line */
	CALL_POLL, CALL_DEFAULT,				/* of neither */
	CALL_OPS
};

struct board_call {
	enum call_op op;
	struct board_device *device;
	struct board_line *line;
	u32 number;
	bool shared, oneshot, noauto;
};

struct board_pick {
	char letter;
	int no;
	u32 times;
};

struct board_event {
	bool off;
	u32 cpu;
};

struct board {
	int cpus, domain_count, line_count, device_count, driver_count, pick_count;
	struct board_domain domains[MAX_DOMAINS];
	struct board_line lines[MAX_LINES];
	struct board_device devices[MAX_DEVICES];
	struct actor processors[MAX_CPUS], drivers[MAX_DRIVERS];
	struct board_pick *picks;
	bool rules[RULES], words[WORDS];
	bool trace, domain_calls;
	int first_virq;			/* the lowest free one before the first line */
	u32 vectors;			/* of each processor, where some go offline */
	struct board_event events[MAX_EVENTS];
	int event_count;
	bool placing;			/* the events are under way */
	bool sleeps;
	struct board_line *woken_by;	/* the first line that woke the machine */
	u32 total, rows, log;
	u32 moves;			/* steps without a row */
	struct board_line *full;	/* its log has no place for its next row */
};

extern struct board *the_board;
extern wait_queue_head_t scheduler_wait;

static inline bool has_rule(enum rule rule)
{
	return the_board->rules[rule];
}

static inline bool has_word(enum word word)
{
	return the_board->words[word];
}

/* rows.c */
void register_output(void);
__printf(1, 2) void emit(const char *format, ...);
__printf(1, 2) void emit_trace(const char *format, ...);
__printf(2, 3) void emit_row(struct board_line *line, const char *format, ...);
void emit_state(struct board_line *line);
void emit_end(struct actor *cpu, bool again);

/* actors.c */
struct actor *current_actor(void);
void pass_gate(struct actor *actor, enum gate gate);
void set_actor_state(struct actor *actor, enum actor_state state);
void play_board(void);
bool goes_on(void);
bool step(struct actor *actor);
bool step_inner(void);
bool is_next(struct actor *driver, enum call_op op);
bool was_woken(struct actor *thread);
void make_call(struct actor *actor, struct board_call *call);

/* runs.c */
bool has_thread(struct board_device *device);
void begin_run(struct board_device *device, enum part part);
void make_run_calls(struct actor *actor, struct board_device *device, enum part part);
u32 end_run(struct board_device *device, enum part part);
void make_ask(struct actor *actor, struct board_device *device);
void make_quiet(struct actor *actor, struct board_device *device);
void make_arm(struct actor *actor, struct board_device *device);
void make_serve(struct actor *actor, struct board_device *device);
void make_wake(struct actor *actor, struct board_device *device);

/* waits.c */
void emit_waits(void);

/* hooks.c */
void run_take(struct actor *cpu);
void run_poll(void);
void forget_resends(void);
void wait_for_tasklet(void);
irqreturn_t board_primary(int virq, void *cookie);
irqreturn_t board_thread(int virq, void *cookie);

/* chips.c */
struct board_line *line_of(struct irq_desc *desc);
bool has_signal(struct cell *cell);
void raise_edge(struct board_line *line);
void set_high(struct board_line *line);
int make_domain(struct board_domain *domain);
void make_line(struct board_line *line);
void set_options(struct board_line *line);

/* board.c */
void read_board(char *text);
struct actor *new_driver(int no);
void add_call(struct actor *driver, enum call_op op, struct board_line *line, u32 number);

/* domains.c */
void call_domains(void);

/* hotplug.c */
int place_line(struct board_line *line, struct irq_data *data, const struct cpumask *mask);
int place_first(struct board_line *line, struct irq_data *data);
void machine_mask(struct board_line *line, struct cpumask *mask);
void take_events(void);

/* sleep.c */
struct actor *add_system_driver(void);
void add_sleep(void);
void note_down(struct actor *driver, struct board_line *line);
void note_off(struct board_line *line);
void play_sleep(void);

#endif
