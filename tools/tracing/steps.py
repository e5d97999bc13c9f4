"""From events to the steps of each line: what was done there, by whom, and between which events.

A step has the row's words, a place in the order (`at`), the events that it was made of, and, if it is made without the
lock, the places between which it may be moved: for what waits from `at` to `until`, for what stands at an event of its
own from `first` to `last`. What isn't known as a step is made is filled in by later events.
"""

from dataclasses import dataclass, field

from events import line_of, value

# Bits of istate and of the state, by kernel/irq/internals.h and include/linux/irq.h; of flags, by include/linux/interrupt.h.
PENDING = 0x200
LEVEL = 1 << 13
SHARED, ONESHOT, NO_AUTOEN = 0x80, 0x2000, 0x80000
ERRNO = {-22: "22", -16: "16"}

FLOWS = {"fe": "edge", "fl": "level", "fo": "eoi"}
PAIRS = {"di": "dx", "dh": "dy", "dn": "dz", "cr": "cx", "rq": "rr", "fi": "fr", "sh": "sx", "si": "sy", "af": "ax", "ad": "ay",
         "tf": "tr", "fz": "fx", "rs": "rx", "mo": "my"}
ENDS = {end: begin for begin, end in PAIRS.items()}


# Probes that come while another one runs on their processor are missed by the kernel; the trace points aren't.
MISSED = "an interrupt that the probes missed"


@dataclass(eq=False)
class Step:
    """One row to be. `who` is c0, or ("task", P), ("device", D), ("thread", D), ("own",)."""

    at: int
    who: object
    words: list
    events: list
    until: int | None = None
    call: object = None
    more: dict = field(default_factory=dict)
    first: int | None = None
    last: int | None = None

    def span(self):
        """The first and the last place at which it may stand; the same one twice for what is done under the lock."""
        if self.until is not None:
            return self.at, self.until
        return self.at if self.first is None else self.first, self.at if self.last is None else self.last


@dataclass(eq=False)
class Device:
    """An action: its number on the boards, its name, and what the kernel said of it."""

    number: int
    name: str
    action: str | None = None
    dev: str | None = None
    flags: int | None = None
    is_null: bool = False


class Frame:
    """A function that was entered and isn't left yet, with what was seen in it."""

    def __init__(self, event, at):
        self.event, self.name, self.line, self.at = event, event.name, line_of(event), at
        self.steps, self.events, self.step = {}, [event.number], None
        # whether whoever is in it entered the function again
        self.is_over = False

    def alone(self):
        """Its events that aren't those of its step."""
        return [it for it in self.events if not self.step or it not in self.step.events]


class Flow:
    """One call of a flow handler."""

    def __init__(self, event, at, is_resend):
        self.events, self.kind, self.at, self.is_resend = [event.number], FLOWS.get(event.name), at, is_resend
        self.line, self.cpu, self.place, self.take = line_of(event), event.cpu, None, None
        self.is_open, self.begun, self.called, self.exit = False, None, [], None
        # the place of its last event of its handlers, and the wake whose end isn't seen yet
        self.seen, self.wake = at, None
        self.note, self.end, self.kill, self.acks = None, None, [], 0

    def meets(self, at):
        """An event of the processor in its handlers: a wake before it is over."""
        if self.wake:
            self.wake.last = at
        self.seen, self.wake = at, None


class LineSteps:
    """The steps of one line, and which events are in none."""

    def __init__(self, number, facts):
        self.number, self.facts = number, facts or {}
        self.steps, self.reasons, self.devices, self.linked = [], {}, [], []
        self.kind, self.depth, self.flags, self.ends, self.targets, self.acks, self.busy = None, None, None, [], [], [], []
        # of each device where the last run of its thread was over
        self.idle = {}
        for name in [it for it in (self.facts.get("actions") or "").split(",") if it]:
            self.linked.append(self.add(name))
        self.first, self.awake, self.holes = list(self.linked), set(), []

    def add(self, name):
        self.devices.append(Device(len(self.devices) + 1, name))
        return self.devices[-1]

    def drop(self, numbers, reason):
        self.reasons.setdefault(reason, []).extend(numbers)

    def say(self, at, who, words, events, **more):
        self.steps.append(Step(at, who, words, list(events), **more))
        return self.steps[-1]

    def of_action(self, action, name=None):
        """The device of an action: the one that has it, else one linked before the trace whose action wasn't seen yet."""
        for device in reversed(self.devices):
            if action and device.action == action:
                return device
        for device in self.first:
            if device in self.linked and device.action is None and name in (None, device.name):
                device.action = action
                return device
        return None

    def of_name(self, name, called):
        """The device whose handler is called: the first linked one of this name that wasn't called in the round."""
        for device in [*self.linked, *self.devices]:
            if device.name == name and device not in called:
                return device
        return None

    def seen_depth(self, depth):
        if self.depth is None and depth is not None:
            self.depth = depth


class Walk:
    """Goes through all events of a trace, and gives each line its steps."""

    def __init__(self, trace):
        self.trace, self.lines, self.frames, self.flows, self.opening = trace, {}, {}, {}, {}
        self.reasons, self.at, self.faults, self.polled = {}, 0, {}, set()

    # ---- what the parts are found by

    def line(self, number):
        if number not in self.lines:
            self.lines[number] = LineSteps(number, self.trace.facts.get(number))
        return self.lines[number]

    def drop(self, event, reason):
        number = line_of(event)
        if number is None:
            self.reasons.setdefault(reason, []).append(event.number)
        else:
            self.line(number).drop([event.number], reason)

    def fault(self, text, count=1):
        """What shows that an event is missing, is there twice, or stands at a wrong place."""
        if count:
            self.faults[text] = self.faults.get(text, 0) + count

    def flow(self, event, number=None):
        """The flow that the event's processor is in, if the event is of an interrupt."""
        for flow in reversed(self.flows.get(event.cpu, [])) if event.who[0] == "c" else ():
            if number is None or flow.line == number:
                return flow
        return None

    def inside(self, event, name, number=None):
        for frame in reversed(self.frames.get(event.who, [])):
            if frame.name == name and number in (None, frame.line):
                return frame
        return None

    def enter(self, event):
        """A function is entered; none of these calls itself."""
        stack, frame = self.frames.setdefault(event.who, []), Frame(event, self.at)
        for it in stack:
            it.is_over = it.is_over or it.name == frame.name
        stack.append(frame)
        return frame

    def give_up(self, frame, reason, is_over):
        """A function that never returned: its events stand in no row, but for those of a step that it made."""
        alone = frame.alone()
        if alone:
            self.reasons.setdefault(reason, []).extend(alone)
        self.fault("a call without its return", is_over and len(alone) < len(frame.events))

    def leave(self, event):
        """The frame that a return ends; frames above it that never returned are given up."""
        stack, name = self.frames.get(event.who, []), ENDS[event.name]
        for place in range(len(stack) - 1, -1, -1):
            if stack[place].name == name:
                frame = stack[place]
                for lost in stack[place + 1 :]:
                    self.give_up(lost, "an entry without its return", True)
                del stack[place:]
                frame.events.append(event.number)
                return frame
        self.drop(event, "a return without its entry")
        return None

    def caller(self, event):
        """Who calls: the task, or the processor in whose handler it is."""
        return ("task", event.who[1]) if event.who[0] == "p" else ("handler", event.cpu)

    def walk(self):
        for self.at, event in enumerate(self.trace.events):
            handler = getattr(self, "on_" + event.name, None)
            if handler:
                handler(event)
            elif event.name in PAIRS:
                self.enter(event)
            else:
                self.drop(event, "an event that no rule is for")
        self.close()
        return self.lines

    def close(self):
        """What is still open at the end of the trace stands in no row."""
        for stack in self.frames.values():
            for frame in stack:
                self.give_up(frame, "a call that the trace doesn't see the end of", frame.is_over)
        for flows in self.flows.values():
            for flow in flows:
                self.settle(flow)
                if not flow.take:
                    self.line(flow.line).drop(flow.events, "a flow that the trace doesn't see the end of")
        for line in self.lines.values():
            notes = [it.more["note"] is not None for it in line.ends]
            self.fault("a round without its note", notes.count(False) if any(notes) else 0)
            self.fault("a flow that isn't acknowledged once", len(line.acks) - line.acks.count(1) if any(line.acks) else 0)

    # ---- flows

    def on_fe(self, event):
        flow, stack = Flow(event, self.at, bool(self.inside(event, "rs"))), self.flows.setdefault(event.cpu, [])
        while stack and not stack[-1].is_open:
            stale = stack.pop()
            self.fault("a flow without its return")
            if not stale.take:
                self.line(stale.line).drop(stale.events, "a flow that the trace doesn't see the end of")
        stack.append(flow)
        self.line(flow.line).kind = flow.kind

    on_fl = on_fo = on_fe

    def on_ak(self, event):
        flow = self.flow(event, line_of(event))
        if flow:
            # an edge is acknowledged before its handlers are called
            flow.acks += 1 + (event.name == "ak" and flow.take is not None)
        if not flow:
            self.drop(event, "an acknowledgement outside of a flow")
        elif flow.end:
            flow.end.events.append(event.number)
        elif flow.take:
            flow.take.events.append(event.number)
        else:
            flow.events.append(event.number)
            flow.place = self.at

    on_al = on_ak

    def on_he(self, event):
        flow, line = self.flow(event, line_of(event)), self.line(line_of(event))
        line.seen_depth(value(event, "dep"))
        if not flow or flow.is_open:
            self.polled.add(event.cpu)
            self.drop(event, "a call of handlers outside of a flow that is modelled")
            return
        line.targets.append((self.at, value(event, "eff") or 0))
        if value(event, "flg") is not None and line.flags is None:
            line.flags = value(event, "flg")
        flow.is_open, flow.begun, flow.called = True, None, []
        if flow.take:
            flow.end.words[1] = "again"
            flow.end.events.append(event.number)
        else:
            words = ["take", "resend" if flow.is_resend else "line", "handle"]
            flow.take = line.say(self.at, f"c{event.cpu}", words, [*flow.events, event.number])
            flow.take.more["rounds"] = []
        flow.take.more["rounds"].append([])
        flow.end = None
        flow.meets(self.at)

    def on_irq_handler_entry(self, event):
        flow, line = self.flow(event, line_of(event)), self.line(line_of(event))
        if not flow or not flow.is_open:
            self.drop(event, "a handler outside of a flow that is modelled" if event.cpu in self.polled else MISSED)
            if event.cpu not in self.polled:
                line.holes.append(self.at)
            return
        self.settle(flow)
        device = line.of_name(event.args["name"], flow.called)
        if not device:
            device = line.add(event.args["name"])
            line.first.append(device)
            line.linked.append(device)
        flow.called.append(device)
        flow.begun = line.say(self.at, f"c{event.cpu}", ["begin", device], [event.number], more={"device": device},
                              first=flow.seen)
        flow.meets(self.at)

    def on_irq_handler_exit(self, event):
        flow = self.flow(event, line_of(event))
        if not flow or not flow.begun or flow.exit or flow.note:
            self.drop(event, "a handler outside of a flow that is modelled" if flow or event.cpu in self.polled else MISSED)
            return
        flow.meets(self.at)
        flow.begun.last = self.at
        if event.args.get("ret") == "unhandled":
            self.answered(flow, "nothing", self.at, [event.number])
        else:
            flow.exit = (self.at, event.number)

    def answered(self, flow, answer, at, events):
        """The handler at work has returned."""
        device, line = flow.begun.more["device"], self.line(flow.line)
        line.say(at, f"c{flow.cpu}", ["return", device, answer, 0], events, more={"device": device})
        flow.begun.more["answer"] = answer
        flow.take.more["rounds"][-1].append((device, answer))
        flow.begun, flow.exit = None, None

    def settle(self, flow):
        """A handler that said that it did something, and woke no thread since, has handled."""
        if flow.exit:
            self.answered(flow, "handled", flow.exit[0], [flow.exit[1]])

    def on_wt(self, event):
        flow, line = self.flow(event, line_of(event)), self.line(line_of(event))
        if not flow or not flow.exit:
            self.drop(event, "a thread that no handler of a flow woke")
            return
        device, events = flow.begun.more["device"], [flow.exit[1], event.number]
        device.action = event.args.get("act")
        line.awake.add(device)
        self.answered(flow, "wake", self.at, events)
        line.steps[-1].more["was_woken"] = bool((value(event, "tfl") or 0) & 1)
        flow.meets(self.at)
        flow.wake = line.steps[-1]

    def on_no(self, event):
        flow, line = self.flow(event, line_of(event)), self.line(line_of(event))
        if not flow or not flow.is_open:
            self.drop(event, "a note outside of a flow that is modelled")
            return
        self.settle(flow)
        flow.meets(self.at)
        flow.note = event

    def on_hr(self, event):
        flow = next((it for it in reversed(self.flows.get(event.cpu, [])) if it.is_open), None)
        if not flow:
            self.polled.discard(event.cpu)
            self.drop(event, "a return without its entry")
            return
        self.settle(flow)
        flow.meets(self.at)
        line, events = self.line(flow.line), [*flow.kill, event.number]
        note = flow.note
        if note:
            events.insert(0, note.number)
        flow.end = line.say(self.at, f"c{event.cpu}", ["end", "leave", "asis", "killed" if flow.kill else None], events,
                            more={"note": note, "nth": len(line.ends)})
        line.ends.append(flow.end)
        flow.is_open, flow.note, flow.kill = False, None, []

    def on_xe(self, event):
        stack = self.flows.get(event.cpu, [])
        if not stack:
            self.drop(event, "a return without its entry")
            return
        flow = stack.pop()
        if not flow.is_resend:
            self.line(flow.line).acks.append(flow.acks)
        if flow.end:
            flow.end.events.append(event.number)
        elif flow.take:
            self.line(flow.line).drop([event.number], "a flow that the trace doesn't see the end of")
        else:
            at, until = (flow.place, None) if flow.place is not None else (flow.at, self.at)
            words = ["take", "resend" if flow.is_resend else "line", None]
            self.line(flow.line).say(at, f"c{event.cpu}", words, [*flow.events, event.number], until=until)

    on_xl = on_xo = on_xe

    def on_mm(self, event):
        """A chip masks or unmasks: it belongs to what is done under the lock just then."""
        flow = self.flow(event, line_of(event))
        opening = self.opening.get((event.who, line_of(event)))
        frame = next((it for it in reversed(self.frames.get(event.who, [])) if it.line == line_of(event)), None)
        if flow and flow.end:
            # a chip that moves its line as it ends the interrupt masks before and unmasks after, past the line's own mask
            flow.end.events.append(event.number)
            if event.name in ("mm", "im"):
                flow.end.more["moves"] = True
            elif not flow.end.more.pop("moves", False):
                flow.end.words[2] = "unmask"
        elif flow and not flow.is_open:
            (flow.take.events if flow.take else flow.events).append(event.number)
        elif flow and flow.note:
            flow.kill.append(event.number)
        elif opening:
            opening.events.append(event.number)
        elif frame:
            (frame.step.events if frame.step else frame.events).append(event.number)
        else:
            self.drop(event, "a chip's mask that no row shows")

    on_mu = on_im = on_iu = on_mm
