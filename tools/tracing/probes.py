"""The one table of what is probed: functions of kernel/irq, the fields that are read there, and what is lost without.

TRIED names the kernels on which all of it was set. A field is written STRUCT:PATH of an argument, as in
`1 irq_desc depth u32`; its offset comes from the kernel's own BTF, so another 6.1 kernel needs no new table. Functions
are those that another file calls or whose address is taken, and so aren't inlined; a choice is parted by `|`.
"""

TRIED = ("6.1.192 (Debian 6.1.0-57-amd64, x86-64)",)

STRUCTS = ("irq_desc", "irqaction", "irq_data", "task_struct")

ISTATE = "core_internal_state__do_not_mess_with_it"
IRQ = "irq=1 irq_desc irq_data.irq u32"
DATA_IRQ = "irq=1 irq_data irq u32"
DEPTH = "dep=1 irq_desc depth u32"
STATE = "sta=1 irq_desc irq_common_data.state_use_accessors x32"
INTERNAL = f"ist=1 irq_desc {ISTATE} x32"
ONESHOT = "one=1 irq_desc threads_oneshot x64"
ACTION = "act=2 x64"
# A compiler may have split it.
FINALIZE = "irq_finalize_oneshot|irq_finalize_oneshot.part.0|irq_finalize_oneshot.isra.0"

# Event, p for an entry or r for a return, functions, fields, and what is lost where it can't be set. An event whose name
# begins with `@` is of a chip: it stands under the lock too, and narrows what else is placed between two events.
PROBES = (
    # flows
    ("fe", "p", "handle_edge_irq", (IRQ,), "takes of edge lines that aren't handled"),
    ("fl", "p", "handle_level_irq", (IRQ,), "takes of level lines that aren't handled"),
    ("fo", "p", "handle_fasteoi_irq", (IRQ,), "takes of fast-EOI lines that aren't handled"),
    ("xe", "r", "handle_edge_irq", (), "where an edge flow is over"),
    ("xl", "r", "handle_level_irq", (), "where a level flow is over"),
    ("xo", "r", "handle_fasteoi_irq", (), "where a fast-EOI flow is over"),
    ("he", "p", "handle_irq_event",
     (IRQ, DEPTH, STATE, INTERNAL, ONESHOT, "eff=1 irq_desc irq_common_data.effective_affinity mask",
      "flg=1 irq_desc action->flags x32"), "handled takes: nothing can be judged"),
    ("hr", "r", "handle_irq_event", (), "ends"),
    ("no", "p", "note_interrupt",
     (IRQ, "ret=2 u32", "cnt=1 irq_desc irq_count u32", "unh=1 irq_desc irqs_unhandled u32",
      "lun=1 irq_desc last_unhandled u64", "thl=1 irq_desc threads_handled_last s32", INTERNAL), "notes: ends stand as quiet"),
    ("po", "p", "try_one_irq", (IRQ,), "polls of killed lines"),
    ("rs", "p", "resend_irqs", (), "which takes are resends"),
    ("rx", "r", "resend_irqs", (), "which takes are resends"),
    # threads
    ("wt", "p", "__irq_wake_thread",
     (IRQ, ACTION, "pid=2 irqaction thread->pid s32", "tfl=2 irqaction thread_flags x64", "hdl=2 irqaction handler x64"),
     "wakes of threads: their devices stand as direct"),
    ("iw", "p", "irq_wake_thread", ("irq=1 u32",), "threads that a driver wakes"),
    ("tf", "p", "irq_thread_fn", (IRQ, ACTION), "runs of threads"),
    ("tr", "r", "irq_thread_fn", ("ret=r u32",), "runs of threads"),
    ("ff", "p", "irq_forced_thread_fn", (IRQ, ACTION), "forced threads"),
    ("fz", "p", FINALIZE, (IRQ, ACTION), "finishes of one-shot threads"),
    ("fx", "r", FINALIZE, (), "finishes of one-shot threads"),
    ("ut", "p", "unmask_threaded_irq", (IRQ, ONESHOT), "whether a finish unmasks"),
    # enable and disable
    ("di", "p", "disable_irq", ("irq=1 u32",), "that a disable waits"),
    ("dx", "r", "disable_irq", (), "that a disable waits"),
    ("dh", "p", "disable_hardirq", ("irq=1 u32",), "that a disable waits for the flow"),
    ("dy", "r", "disable_hardirq", (), "that a disable waits for the flow"),
    ("dn", "p", "__disable_irq_nosync", ("irq=1 u32",), "disables of lines that are disabled"),
    ("dz", "r", "__disable_irq_nosync", (), "disables of lines that are disabled"),
    ("dd", "p", "__disable_irq", (IRQ, DEPTH), "disables for a suspend"),
    ("id", "p", "irq_disable", (IRQ, DEPTH, STATE), "disables and kills"),
    ("pu", "p", "__irq_put_desc_unlock", (IRQ, DEPTH), "where a disable of a disabled line stands"),
    ("ee", "p", "__enable_irq", (IRQ, DEPTH, STATE, INTERNAL, "act=1 irq_desc action x64"), "enables"),
    ("is", "p", "irq_startup", (IRQ, DEPTH, STATE, INTERNAL, "rsd=2 u8"), "starts"),
    ("cr", "p", "check_irq_resend", (IRQ, STATE, INTERNAL), "resends"),
    ("cx", "r", "check_irq_resend", ("ret=r s32",), "resends that are refused"),
    ("sd", "p", "irq_shutdown", (IRQ, DEPTH, STATE), "which free is the last"),
    # requests and frees
    ("rq", "p", "request_threaded_irq",
     ("irq=1 u32", "hdl=2 x64", "thr=3 x64", "flg=4 x32", "nam=5 string", "dev=6 x64"), "requests that are refused"),
    ("rr", "r", "request_threaded_irq", ("ret=r s32",), "requests that are refused"),
    ("ia", "p", "irq_pm_install_action",
     (IRQ, ACTION, "flg=2 irqaction flags x32", "dev=2 irqaction dev_id x64", "hdl=2 irqaction handler x64",
      "thr=2 irqaction thread_fn x64", "nam=2 irqaction name string", DEPTH, INTERNAL), "requests"),
    ("ra", "p", "irq_pm_remove_action", (IRQ, ACTION, "dev=2 irqaction dev_id x64", "nam=2 irqaction name string"), "unlinks"),
    ("fi", "p", "free_irq", ("irq=1 u32", "dev=2 x64"), "frees that find nothing"),
    ("fr", "r", "free_irq", ("ret=r x64",), "where a free is over"),
    ("sh", "p", "__synchronize_hardirq", ("irq=1 irq_desc irq_data.irq u32",), "hard clears"),
    ("sx", "r", "__synchronize_hardirq", (), "hard clears"),
    ("si", "p", "synchronize_irq", ("irq=1 u32",), "syncs"),
    ("sy", "r", "synchronize_irq", (), "syncs"),
    # affinity
    ("af", "p", "irq_set_affinity_locked",
     (DATA_IRQ, "msk=2 x64*", "sta=1 irq_data common->state_use_accessors x32"), "changes of affinity"),
    ("ax", "r", "irq_set_affinity_locked", ("ret=r s32",), "changes of affinity that are refused"),
    ("ad", "p", "irq_do_set_affinity", (DATA_IRQ, "msk=2 x64*"), "moves that nobody called"),
    ("ay", "r", "irq_do_set_affinity", ("ret=r s32",), "moves that a chip refuses"),
    ("mo", "p", "irq_migrate_all_off_this_cpu", (), "which moves are those of a processor that goes offline"),
    ("my", "r", "irq_migrate_all_off_this_cpu", (), "which moves are those of a processor that goes offline"),
    # chips
    ("@ak", "p", "apic_ack_edge", (DATA_IRQ,), "the exact place of a take of an edge line that isn't handled"),
    ("@al", "p", "ioapic_ack_level", (DATA_IRQ,), "the exact place of a take of an I/O APIC's level line that isn't handled"),
    ("@rt", "p", "apic_retrigger_irq", (DATA_IRQ,), "whether a chip resends"),
    ("@mm", "p", "pci_msi_mask_irq", (DATA_IRQ,), "masks of messages"),
    ("@mu", "p", "pci_msi_unmask_irq", (DATA_IRQ,), "unmasks of messages"),
    ("@im", "p", "mask_ioapic_irq", (DATA_IRQ,), "masks of an I/O APIC"),
    ("@iu", "p", "unmask_ioapic_irq", (DATA_IRQ,), "unmasks of an I/O APIC"),
)

# Trace points: the system, the name, and what is lost.
POINTS = (
    ("irq", "irq_handler_entry", "begins of handlers: nothing can be judged"),
    ("irq", "irq_handler_exit", "returns of handlers: nothing can be judged"),
)

REGISTERS = ("%di", "%si", "%dx", "%cx", "%r8", "%r9")


def fetched(field, btf):
    """A field of the table as the kernel's kprobe events write it; None where BTF lacks it."""
    name, _, words = field.partition("=")
    words = words.split()
    register = "$retval" if words[0] == "r" else REGISTERS[int(words[0]) - 1]
    if len(words) == 2:
        if words[1] == "string":
            return f"{name}=+0({register}):string"
        if words[1].endswith("*"):
            return f"{name}=+0({register}):{words[1][:-1]}"
        return f"{name}={register}:{words[1]}"
    offsets, last = btf.steps(words[1], words[2])
    text = register
    for offset in offsets:
        text = f"+{offset}({text})"
    if words[3] == "mask":
        return f"{name}={f'+0({text})' if btf.is_pointer(last) else text}:x64"
    if words[3] == "string":
        return f"{name}=+0({text}):string"
    return f"{name}={text}:{words[3]}"
