"""What stands below the text of tools/compare."""
from compare_sums import is_of_one_node
from expected import refusal
from flags import Settings, notes_on
from program import NO_RULES
from table import rules_in

SUPER_CARRIER = (
    "The node has a super carrier: what it once took of the system it keeps, so that its resident memory (RSS) stays as"
    " at the peak, whatever the flags. Compare peaks."
)


def schedulers_of(row):
    words = (row.get("flags") or "").split()
    return next((value for flag, value in [*zip(words[::2], words[1::2])][::-1] if flag == "+S"), "1")


def has_super_carrier(rules):
    """Whether a node of these rules has a super carrier: one without has its carriers at falling addresses, too."""
    return {"powers", "counter"} <= {*rules.split()} and "falling" not in rules


def notes_on_flags(rows):
    """What has to be said of the flags of the runs that ended well, each once. The flags of a list are for all
    allocators of a node."""
    letters = {}
    for it in rows:
        if it.get("status") == 0 and it.get("type"):
            letters.setdefault((it.get("trace"), it.get("flags") or ""), {})[it["type"]] = True
    is_one = is_of_one_node(rows)
    of_all = sorted({it for those in letters.values() for it in those}) if is_one else ()
    is_several = not is_one and len({trace for trace, _ in letters}) > 1
    for (trace, flags), those in letters.items():
        for note in notes_on(flags.split(), [*those], of_all):
            yield f"{trace}: {note}." if is_several else f"{note}."


def settings_of(row):
    """All that held in a run that ended well, or None."""
    words = (row.get("flags") or "").split()
    is_known = row.get("status") == 0 and row.get("type") and not refusal(words)
    return Settings.of(words, row["type"]).all_held() if is_known else None


def notes_on_same(rows):
    """Which lists set the same for each input and type, in a line for those that do."""
    held, alike = {}, {}
    for it in rows:
        if settings_of(it):
            held.setdefault(it.get("list"), {})[it.get("trace"), it["type"]] = settings_of(it)
    for name, settings in held.items():
        alike.setdefault(tuple(settings.items()), []).append(name)
    return (f"The same settings, so one list: {'; '.join(names)}." for names in alike.values() if len(names) > 1)


def notes(rows, shared):
    """What has to be said of the table, in lines."""
    if shared:
        yield f"All lists have {shared}."
    yield from notes_on_same(rows)
    yield from dict.fromkeys(notes_on_flags(rows))
    rules = rules_in(rows)
    if len(rules) == 1 and rules != {NO_RULES}:
        yield f"All ran by the rules {[*rules][0]} of a node."
    if any(has_super_carrier(it) for it in rules):
        yield SUPER_CARRIER
    failed = [it for it in rows if it.get("failed")]
    if failed:
        yield f"In {len(failed)} of {len(rows)} lines allocations failed: what found no place needs no memory there."
    if any(it.get("failed_space") for it in failed):
        yield "Failed for want of pages: a larger +MMscs, of which each scheduler has an equal part."
    if any(it.get("failed_numbers") for it in failed):
        yield "Failed for want of numbers: an instance has 1024 carriers at most. Larger ones: +M<S>smbcs, +M<S>sbct."
    ran = {(it.get("type"), it.get("ran")) for it in rows if it.get("ran")}
    differ = len(ran) > len({letter for letter, _ in ran})
    if differ and any(schedulers_of(it) != "1" for it in rows):
        yield (
            "The lists differ in as or acul, with several schedulers: there a node often does otherwise"
            " (docs/differences.md, 'How far it agreed')."
        )
