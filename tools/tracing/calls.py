"""From events to the steps of each line, second part: threads, and the calls of drivers and of user space."""

from events import line_of, value
from steps import ERRNO, LEVEL, NO_AUTOEN, ONESHOT, PENDING, SHARED, Walk


EBUSY = -16
BEFORE = "a run of a thread that was woken before the trace"


def letters(flags):
    """A request's flags as a row has them."""
    text = "".join(letter for bit, letter in ((SHARED, "s"), (ONESHOT, "o"), (NO_AUTOEN, "n")) if flags & bit)
    return text or "-"


class Calls(Walk):
    """The events of threads and of calls."""

    # ---- threads

    def on_tf(self, event):
        line = self.line(line_of(event))
        device = line.of_action(event.args.get("act"))
        if not device:
            self.drop(event, "a run of a thread whose device isn't known")
            return
        frame = self.enter(event)
        frame.steps["of"] = device
        if device in line.awake:
            frame.step = line.say(self.at, ("thread", device), ["begin"], [event.number], more={"device": device},
                                  first=line.idle.get(device, 0))
            frame.steps["device"] = device

    def on_fz(self, event):
        frame = self.inside(event, "tf", line_of(event))
        inner = self.enter(event)
        if frame and frame.step:
            device = frame.steps["device"]
            line = self.line(frame.line)
            inner.step = line.say(self.at, ("thread", device), ["return", 0], [event.number],
                                  more={"device": device}, first=frame.at)
            frame.steps["return"] = inner.step

    def on_ut(self, event):
        frame = self.inside(event, "fz", line_of(event))
        if frame:
            frame.steps["unmask"] = self.at
            frame.events.append(event.number)
        else:
            self.drop(event, "a chip's mask that no row shows")

    def on_fx(self, event):
        frame = self.leave(event)
        outer = frame and self.inside(event, "tf", frame.line)
        if not outer or not outer.step:
            self.reasons.setdefault(BEFORE, []).extend(frame.events if frame else ())
            return
        device, exact = outer.steps["device"], frame.steps.get("unmask")
        words = ["finish", "cleared", "unmask"] if exact else ["finish", None, "asis"]
        self.line(frame.line).say(exact or frame.at, ("thread", device), words, frame.events[1:], until=None if exact else self.at,
                                  more={"device": device})

    def on_tr(self, event):
        frame = self.leave(event)
        if not frame:
            return
        line, device = self.line(frame.line), frame.steps.get("device")
        line.idle[frame.steps["of"]] = self.at
        if not device:
            line.drop(frame.events, BEFORE)
            return
        back = frame.steps.get("return")
        if not back:
            back = line.say(self.at, ("thread", device), ["return", 0], [], more={"device": device}, first=frame.at)
        frame.step.more["served"] = value(event, "ret") == 1
        back.events.append(event.number)
        line.say(self.at, ("thread", device), ["done"], [event.number], more={"device": device})

    # ---- disable, enable, synchronise

    def on_id(self, event):
        line, frame = self.line(line_of(event)), self.inside(event, "dn", line_of(event))
        flow = self.flow(event, line_of(event))
        line.seen_depth((value(event, "dep") or 1) - 1)
        if frame and not frame.step:
            frame.step = self.disabled(frame, event, self.at)
        elif flow and flow.note:
            flow.kill.append(event.number)
        elif frame := self.inside(event, "dd"):
            frame.events.append(event.number)
        else:
            self.drop(event, "a disable that no call is behind")

    def disabled(self, frame, event, at):
        outer = self.inside(event, "di", frame.line) or self.inside(event, "dh", frame.line)
        word = "disable" if outer and outer.name == "di" else "disable_nosync"
        call = [word]
        events = [*frame.events, event.number]
        if outer:
            outer.steps["call"] = call
            events = [*outer.events, *events]
            outer.events = []
        return self.line(frame.line).say(at, self.caller(event), ["disable"], events, call=call)

    def on_pu(self, event):
        frame = self.inside(event, "dn", line_of(event))
        if not frame:
            self.drop(event, "the end of a call that isn't modelled")
        elif frame.step:
            frame.step.events.append(event.number)
        else:
            depth = value(event, "dep")
            if depth == 1:
                self.fault("a disable without its hold")
            self.line(frame.line).seen_depth(depth - 1 if depth else None)
            frame.step = self.disabled(frame, event, self.at)

    def on_dz(self, event):
        frame = self.leave(event)
        if frame and frame.step:
            frame.step.events.append(event.number)
        elif frame:
            self.line(frame.line).drop(frame.events, "a disable that no hold was seen of")

    def on_dd(self, event):
        line = self.line(line_of(event))
        line.seen_depth(value(event, "dep"))
        line.say(self.at, ("task", event.pid), ["disable"], [event.number], call=["disable_nosync"])

    def on_dx(self, event):
        frame = self.leave(event)
        if frame:
            step = frame.steps.get("synced")
            if step:
                step.events += frame.events
            else:
                self.line(frame.line).drop(frame.events, "a wait that no row shows")

    on_dy = on_dx

    def on_sx(self, event):
        frame = self.leave(event)
        if not frame:
            return
        free, sync, line = self.inside(event, "fi", frame.line), self.inside(event, "si", frame.line), self.line(frame.line)
        if free and free.step:
            free.steps["clear"] = self.at
            line.say(free.step.at, free.step.who, ["hardclear"], frame.events, until=self.at, call=free.step.call)
        elif sync:
            sync.steps["clear"] = self.at
            sync.steps["hard"] = frame.events
        else:
            line.drop(frame.events, "a wait that no row shows")

    def on_sy(self, event):
        frame = self.leave(event)
        if not frame:
            return
        line, outer = self.line(frame.line), self.inside(event, "di", frame.line)
        if "clear" not in frame.steps:
            line.drop(frame.events, "a wait that no row shows")
            return
        call = outer.steps.get("call") if outer else ["sync"]
        if call is None:
            line.drop([*frame.events, *frame.steps["hard"]], "a wait that no row shows")
            return
        line.say(frame.at, self.caller(event), ["hardclear"], frame.steps["hard"], until=frame.steps["clear"], call=call)
        step = line.say(frame.steps["clear"], self.caller(event), ["synced"], frame.events, until=self.at, call=call)
        if outer:
            outer.steps["synced"] = step

    def on_ee(self, event):
        line, request = self.line(line_of(event)), self.inside(event, "rq", line_of(event))
        depth = value(event, "dep")
        line.seen_depth(depth)
        answer = ["lowered"] if depth and depth > 1 else ["unbalanced"]
        if request and request.step:
            step = request.step
            step.words[4:] = answer
            step.events.append(event.number)
        else:
            step = line.say(self.at, self.caller(event), ["enable", *answer], [event.number], call=["enable"])
        self.opening[event.who, line.number] = step

    def on_is(self, event):
        line = self.line(line_of(event))
        step, request = self.opening.get((event.who, line.number)), self.inside(event, "rq", line.number)
        if step and step.at < self.at and step.words[-1] == "unbalanced":
            step.events.append(event.number)
            step.words[-1:] = ["started", "no"]
        elif request:
            request.steps["opened"] = ["started", "no"]
            request.events.append(event.number)
        else:
            self.drop(event, "a start that no call is behind")

    def on_cr(self, event):
        """What a resend is made of; the chip's own event says whether the chip made it."""
        number = line_of(event)
        step, request = self.opening.get((event.who, number)), self.inside(event, "rq", number)
        inner = self.enter(event)
        waits = bool((value(event, "ist") or 0) & PENDING) and not (value(event, "sta") or 0) & LEVEL
        inner.steps["words"] = inner.steps["events"] = None
        if step and "started" in step.words:
            inner.steps["words"], inner.steps["events"] = step.words, step.events
        elif request:
            inner.steps["words"], inner.steps["events"] = request.steps.get("opened"), request.events
        if waits and inner.steps["words"]:
            inner.steps["words"][-1] = "soft"

    def on_rt(self, event):
        frame = self.inside(event, "cr", line_of(event))
        if frame and frame.steps["words"]:
            frame.steps["words"][-1] = "chip"
            frame.events.append(event.number)
        else:
            self.drop(event, "a resend outside of a start")

    def on_cx(self, event):
        frame = self.leave(event)
        if not frame:
            return
        if frame.steps["words"] is None:
            self.line(frame.line).drop(frame.events, "a resend outside of a start")
            return
        frame.steps["events"] += frame.events
        if value(event, "ret") not in (0, None) and frame.steps["words"][-1] == "soft":
            frame.steps["words"][-1] = "no"

    # ---- request and free

    def on_ia(self, event):
        line, frame = self.line(line_of(event)), self.inside(event, "rq", line_of(event))
        device = line.add(event.args.get("nam") or "?")
        device.action, device.dev, device.flags = event.args.get("act"), event.args.get("dev"), value(event, "flg") or 0
        opened = frame.steps.get("opened", ["no"]) if frame else ["no"]
        first = not line.linked
        line.linked.append(device)
        events = [*(frame.events if frame else []), event.number]
        step = line.say(self.at, ("device", device), ["request", device, letters(device.flags), "linked", *opened], events,
                        call=["request", device], more={"device": device, "first": first})
        if frame:
            frame.step, frame.events = step, []

    def on_rr(self, event):
        frame = self.leave(event)
        if not frame:
            return
        line, answer = self.line(frame.line), value(event, "ret")
        self.opening.pop((event.who, frame.line), None)
        if frame.step:
            frame.step.events += frame.events
        elif answer in ERRNO:
            flags = value(frame.event, "flg") or 0
            device = line.add((frame.event.args.get("nam") or "?"))
            device.is_null, device.flags = value(frame.event, "hdl") == 0, flags
            line.say(frame.at, ("device", device), ["request", device, letters(flags), "refused", ERRNO[answer]], frame.events,
                     until=self.at, call=["request", device], more={"device": device})
        else:
            line.drop(frame.events, f"a request that was refused with {answer}")

    def on_ra(self, event):
        line, frame = self.line(line_of(event)), self.inside(event, "fi", line_of(event))
        device = line.of_action(event.args.get("act"), event.args.get("nam"))
        if not frame or not device:
            self.drop(event, "an unlink that no free is behind")
            return
        if device in line.linked:
            line.linked.remove(device)
        call = ["free", device]
        frame.step = line.say(self.at, ("device", device), ["unlink", device, "more"], [*frame.events, event.number], call=call,
                              more={"device": device})
        frame.events = []

    def on_sd(self, event):
        frame = self.inside(event, "fi", line_of(event))
        if frame and frame.step:
            frame.step.words[2] = "last"
            frame.step.events.append(event.number)
        else:
            self.drop(event, "a shutdown that no free is behind")

    def on_fr(self, event):
        frame = self.leave(event)
        if not frame:
            return
        line = self.line(frame.line)
        if frame.step:
            device, clear = frame.step.more["device"], frame.steps.get("clear", frame.step.at)
            line.say(clear, frame.step.who, ["freed", device], frame.events, until=self.at, call=frame.step.call,
                     more={"device": device})
            device.action = None
        else:
            line.drop(frame.events, "a free that found nothing")
            if value(event, "ret"):
                self.fault("a free without its unlink")

    # ---- affinity

    def on_af(self, event):
        line, frame = self.line(line_of(event)), self.enter(event)
        words = ["affinity", value(event, "msk") or 0, "later"]
        frame.step = line.say(self.at, self.caller(event), words, [event.number], call=["affinity"])

    def on_ay(self, event):
        frame = self.leave(event)
        if not frame:
            return
        line, answer = self.line(frame.line), value(event, "ret")
        change, flow = self.inside(event, "af", frame.line), self.flow(event, frame.line)
        opening = self.opening.get((event.who, frame.line)) or self.inside(event, "rq", frame.line)
        if change:
            change.step.words[2:] = ["now"] if answer == 0 else ["refused", ERRNO.get(answer, "22")]
            change.step.events += frame.events
        elif flow:
            (flow.take.events if flow.take else flow.events).extend(frame.events)
            line.busy += [self.at] if answer == EBUSY else []
        elif answer == 0:
            words = ["affinity", value(frame.event, "msk") or 0, "now"]
            line.say(frame.at, ("own",), words, frame.events, call=["affinity"], more={"is_start": bool(opening)})
        else:
            line.drop(frame.events, "a move that the chip refused")

    def on_ax(self, event):
        frame = self.leave(event)
        if frame:
            frame.step.events.append(event.number)

    def on_rx(self, event):
        frame = self.leave(event)
        if frame:
            self.reasons.setdefault("the tasklet of resends", []).extend(frame.events)

    def on_my(self, event):
        frame = self.leave(event)
        if frame:
            self.reasons.setdefault("a processor goes offline", []).extend(frame.events)

    def on_iw(self, event):
        self.drop(event, "a thread that a driver woke")

    def on_po(self, event):
        self.drop(event, "a poll of a killed line")

    def on_ff(self, event):
        self.drop(event, "a forced thread")

    def on_tracing_mark_write(self, event):
        self.drop(event, "a mark of the recording")
