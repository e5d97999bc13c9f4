// SPDX-License-Identifier: GPL-2.0
/*
 * Reads a board. kernel/boardtext.py has looked at it before, so whatever isn't
 * known here is a fault of the harness, and is told as one.
 */
#include <linux/vmalloc.h>
#include "harness.h"

static const char *const domain_kinds[DOMAIN_KINDS] = {
	"latch", "plain", "level", "eoi", "lpi", "vector", "pin", "msi", "remap",
};

static const char *const device_kinds[DEVICE_KINDS] = {
	"direct", "check", "null", "stuck", "odd", "told",
};

static const char *const answer_names[ANSWERS] = { "nothing", "handled", "wake", "claims" };

static const char *const rule_names[RULES] = {
	"unlinked-enable", "depth-one", "unlazy-stays", "refuse-later", "empty-mask",
	"move-each-take", "fast-eoi-resend", "fast-eoi-open", "leave-full-mask", "keep-mask",
};

static const char *const word_names[WORDS] = {
	"nextfirst", "notefirst", "resendfirst", "maskfirst", "realsoft", "noaffinity", "noirqdebug",
	"oneshotsafe", "irqdisable", "wakefirst", "loadfirst", "sentstays",
};

static const char *const call_names[CALL_OPS] = {
	"request", "free", "ask", "quiet", "arm", "serve", "wake",
	"disable", "disable_nosync", "enable", "sync", "sync_hard", "disable_hard", "affinity", "moment",
	"busychip", "poll", "default",
};

/* Of the driver, handler or thread that was named last. */
static struct script *last_script;

static char *next_word(char **text)
{
	char *word;

	while ((word = strsep(text, " \t\r")) != NULL)
		if (*word)
			return word;
	return "";
}

static void fault(const char *what, const char *word)
{
	emit("F %s: %s", what, word);
}

static u32 next_number(char **text)
{
	char *word = next_word(text);
	u32 value = 0;

	if (kstrtou32(word, 10, &value))
		fault("not a number", word);
	return value;
}

/* The place of the word in the list, or its length. */
static int find_word(const char *const *list, int count, const char *word)
{
	int i;

	for (i = 0; i < count; i++)
		if (!strcmp(list[i], word))
			break;
	return i;
}

static struct board_domain *find_domain(const char *name)
{
	int i;

	for (i = 0; i < the_board->domain_count; i++)
		if (!strcmp(the_board->domains[i].name, name))
			return &the_board->domains[i];
	fault("no such domain", name);
	return NULL;
}

static struct board_line *next_line(char **text)
{
	u32 no = next_number(text);
	int i;

	for (i = 0; i < the_board->line_count; i++)
		if (the_board->lines[i].no == no)
			return &the_board->lines[i];
	fault("no such line", "");
	return &the_board->lines[0];
}

static struct board_device *next_device(char **text)
{
	u32 no = next_number(text);
	int i;

	for (i = 0; i < the_board->device_count; i++)
		if (the_board->devices[i].no == no)
			return &the_board->devices[i];
	fault("no such device", "");
	return &the_board->devices[0];
}

static void read_domain(char *text)
{
	struct board_domain *domain = &the_board->domains[the_board->domain_count];
	char *word;

	strscpy(domain->name, next_word(&text), sizeof(domain->name));
	domain->tree = !strcmp(next_word(&text), "tree");
	if (!domain->tree)
		domain->size = next_number(&text);
	word = next_word(&text);
	domain->kind = find_word(domain_kinds, DOMAIN_KINDS, word);
	if (domain->kind == DOMAIN_KINDS)
		fault("no such kind of domain", word);
	if (*next_word(&text))
		domain->parent = find_domain(next_word(&text));
	the_board->domain_count++;
}

static void read_line(char *text)
{
	struct board_line *line = &the_board->lines[the_board->line_count++];
	char *word;

	line->no = next_number(&text);
	line->domain = find_domain(next_word(&text));
	line->number = next_number(&text);
	line->mask = ~0u;
	line->note = "quiet";
	while (*(word = next_word(&text))) {
		if (!strcmp(word, "unlazy"))
			line->unlazy = true;
		else if (!strcmp(word, "later"))
			line->later = true;
		else if (!strcmp(word, "mask"))
			line->mask = next_number(&text);
		else
			fault("no such option", word);
	}
}

static void read_device(char *text)
{
	struct board_device *device = &the_board->devices[the_board->device_count++];
	char *word;

	device->no = next_number(&text);
	device->line = next_line(&text);
	word = next_word(&text);
	device->kind = find_word(device_kinds, DEVICE_KINDS, word);
	if (device->kind == DEVICE_KINDS)
		fault("no such kind of device", word);
	while (*(word = next_word(&text))) {
		if (!strcmp(word, "held"))
			device->held = true;
		else if (!strcmp(word, "forgets"))
			device->forgets = true;
		else
			fault("no such option", word);
	}
	scnprintf(device->name, sizeof(device->name), "device%d", device->no);
}

/* answers DEVICE [thread] ANSWER[*N] .. */
static void read_answers(char *text)
{
	struct board_device *device = next_device(&text);
	struct board_run *run = &device->runs[PART_HANDLER];
	char *word = next_word(&text), *star;

	if (!strcmp(word, "thread")) {
		run = &device->runs[PART_THREAD];
		word = next_word(&text);
	}
	run->answers = vzalloc(array_size(MAX_ANSWERS, sizeof(struct board_answer)));
	for (; *word && run->answer_count < MAX_ANSWERS; word = next_word(&text)) {
		struct board_answer *answer = &run->answers[run->answer_count++];

		star = strchr(word, '*');
		if (star)
			*star++ = 0;
		answer->answer = find_word(answer_names, ANSWERS, word);
		answer->times = star ? next_number(&star) : 1;
		if (answer->answer == ANSWERS)
			fault("no such answer", word);
	}
}

/* handler DEVICE, thread DEVICE */
static void read_run(enum part part, char *text)
{
	last_script = &next_device(&text)->runs[part].script;
	last_script->most = MAX_RUN_CALLS;
	last_script->calls = kcalloc(MAX_RUN_CALLS, sizeof(struct board_call), GFP_KERNEL);
}

struct actor *new_driver(int no)
{
	struct actor *driver = &the_board->drivers[the_board->driver_count++];

	driver->letter = 'd';
	driver->no = no;
	driver->script.most = MAX_CALLS;
	driver->script.calls = vzalloc(array_size(MAX_CALLS, sizeof(struct board_call)));
	return driver;
}

void add_call(struct actor *driver, enum call_op op, struct board_line *line, u32 number)
{
	struct board_call *call = &driver->script.calls[driver->script.count++];

	call->op = op;
	call->line = line;
	call->number = number;
}

static void read_picks(char *text)
{
	char *word, *star;

	while (*(word = next_word(&text)) && the_board->pick_count < MAX_PICKS) {
		struct board_pick *pick = &the_board->picks[the_board->pick_count++];

		star = strchr(word, '*');
		if (star)
			*star++ = 0;
		pick->letter = *word++;
		pick->no = next_number(&word);
		pick->times = star ? next_number(&star) : 1;
	}
}

static void read_call(enum call_op op, char *text)
{
	struct board_call *call;
	char *word;

	if (!last_script || last_script->count == last_script->most) {
		fault("a call too many", call_names[op]);
		return;
	}
	call = &last_script->calls[last_script->count++];
	call->op = op;
	if (op <= CALL_WAKE) {
		call->device = next_device(&text);
		call->line = call->device->line;
	} else if (op < CALL_POLL) {
		call->line = next_line(&text);
	}
	if (op == CALL_AFFINITY || op == CALL_MOMENT || op == CALL_BUSY ||
	    op == CALL_DEFAULT)
		call->number = next_number(&text);
	while (*(word = next_word(&text))) {
		if (!strcmp(word, "shared"))
			call->shared = true;
		else if (!strcmp(word, "oneshot"))
			call->oneshot = true;
		else if (!strcmp(word, "noauto"))
			call->noauto = true;
		else
			fault("no such flag", word);
	}
}

static void read_profile(char *text)
{
	char *word = next_word(&text);
	int rule;

	if (!*word)
		memset(the_board->rules, true, sizeof(the_board->rules));
	for (; *word; word = next_word(&text)) {
		rule = find_word(rule_names, RULES, word);
		if (rule == RULES)
			fault("no such rule", word);
		else
			the_board->rules[rule] = true;
	}
}

static void read_hotplug(char *text)
{
	char *word, *cpu;

	the_board->vectors = next_number(&text);
	while (*(word = next_word(&text)) && the_board->event_count < MAX_EVENTS) {
		struct board_event *event = &the_board->events[the_board->event_count++];

		cpu = strchr(word, ':');
		if (cpu)
			*cpu++ = 0;
		event->off = !strcmp(word, "off");
		event->cpu = next_number(&cpu);
	}
}

static void read_sleep(char *text)
{
	char *word;

	the_board->sleeps = true;
	while (*(word = next_word(&text)))
		next_line(&word)->armed = true;
}

/* Words of a line that boards don't have. */
static bool read_line_word(const char *word, char *text)
{
	if (!strcmp(word, "onactivate"))
		next_line(&text)->on_activate = true;
	else if (!strcmp(word, "noautoen"))
		next_line(&text)->no_autoen = true;
	else if (!strcmp(word, "polled"))
		next_line(&text)->polled = true;
	else if (!strcmp(word, "untyped"))
		next_line(&text)->untyped = true;
	else if (!strcmp(word, "enforced"))
		next_line(&text)->enforced = true;
	else if (!strcmp(word, "unaimed"))
		next_line(&text)->unaimed = true;
	else if (!strcmp(word, "unbalanced"))
		next_line(&text)->unbalanced = true;
	else
		return false;
	return true;
}

/* Statements of a board's first section, and words beside them. */
static bool read_setting(const char *word, char *text)
{
	int found = find_word(word_names, WORDS, word);

	if (found < WORDS)
		the_board->words[found] = true;
	else if (!strcmp(word, "cpus"))
		the_board->cpus = next_number(&text);
	else if (!strcmp(word, "log"))
		the_board->log = next_number(&text);
	else if (!strcmp(word, "rows"))
		the_board->rows = next_number(&text);
	else if (!strcmp(word, "hz"))
		harness_hz = next_number(&text);
	else if (!strcmp(word, "trace"))
		the_board->trace = true;
	else if (!strcmp(word, "domains"))
		the_board->domain_calls = true;
	else if (!strcmp(word, "profile"))
		read_profile(text);
	else if (!strcmp(word, "hotplug"))
		read_hotplug(text);
	else if (!strcmp(word, "sleep"))
		read_sleep(text);
	else if (!strcmp(word, "spurious")) {
		harness_window = next_number(&text);
		harness_limit = next_number(&text);
	} else
		return false;
	return true;
}

static void read_statement(char *text)
{
	char *word = next_word(&text);
	int op = find_word(call_names, CALL_OPS, word);

	if (!*word || !strcmp(word, "board"))
		return;
	if (op < CALL_OPS)
		read_call(op, text);
	else if (!strcmp(word, "domain"))
		read_domain(text);
	else if (!strcmp(word, "line"))
		read_line(text);
	else if (!strcmp(word, "device"))
		read_device(text);
	else if (!strcmp(word, "driver"))
		last_script = &new_driver(next_number(&text))->script;
	else if (!strcmp(word, "handler"))
		read_run(PART_HANDLER, text);
	else if (!strcmp(word, "thread"))
		read_run(PART_THREAD, text);
	else if (!strcmp(word, "answers"))
		read_answers(text);
	else if (!strcmp(word, "picks"))
		read_picks(text);
	else if (!read_setting(word, text) && !read_line_word(word, text))
		fault("no such word", word);
}

void read_board(char *text)
{
	char *line;

	last_script = NULL;
	while ((line = strsep(&text, "\n")) != NULL)
		read_statement(line);
}
