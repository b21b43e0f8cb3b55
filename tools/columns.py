"""The columns of tools/compare."""

COLUMNS = {
    "list": "the list of flags: its file, and the words of --each; as text without what all lists share",
    "flags": "all its words, as the program takes them",
    "trace": "the file of the trace",
    "type": "the letter of the allocator, of which an input of several has a line for each",
    "ran": "what ran by these flags: the strategy, and its `acul`",
    "rules": "the rules of a node by which recorded operations ran; `none` where their input names none",
    "mark": "with --marks: the mark at which all this was so; `end` is the whole run",
    "status": "with which the program ended: 0 if its text is whole",
    "mb_end": "the megabytes of all carriers at the end, of 1048576 bytes",
    "mb_most": "and at most",
    "mb_peak": "the megabytes at the marks `peak..` of the input, of several the most",
    "mb_valley": "and at its marks `valley..`",
    "percent_end": "mb_end in percent of that of the first list",
    "percent_most": "and mb_most",
    "percent_peak": "and mb_peak",
    "percent_valley": "and mb_valley",
    "carriers_end": "how many carriers there are at the end",
    "carriers_most": "and at most",
    "created": "how many were created in all: calls to the system, of many singleblock carriers above all",
    "units_end": "the units of all carriers at the end, a unit being 8 bytes",
    "units_most": "and at most",
    "utilisation_end": "percent of the carriers' units that are in blocks, queued ones too, at the end",
    "utilisation_most": "and at most",
    "utilisation_each": "the same at the end, of the carriers that each instance uses, / between them; - for none",
    "blocks_end": "how many blocks there are at the end, without queued ones",
    "block_bytes": "the bytes of one of them on average, its header included",
    "blocks_single": "how many of them have a singleblock carrier",
    "mb_single": "the megabytes of those carriers",
    "gap_kb": "the kilobytes of the largest gap of a multiblock carrier at the end",
    "failed": "allocations and reallocations that found no place",
    "failed_space": "those of them that failed for want of pages",
    "failed_numbers": "those that failed for want of carrier numbers",
    "moved": "blocks that realloc moved",
    "abandoned": "how often a carrier was abandoned",
    "fetched": "how often one was fetched from the pool",
    "returned": "how often one lost its last block away from its owner, and was sent back",
    "queued": "units of blocks that are queued at the end, or in the hand of a stopped scheduler",
    "stopped": "schedulers that are stopped",
    "undone": "operations without an entry, since their scheduler was stopped before or within them",
    "seconds": "wall-clock seconds of the run",
    "said": "what the program said where its status is not 0",
}
DECIMALS = {
    "mb_end": 1,
    "mb_most": 1,
    "mb_peak": 1,
    "mb_valley": 1,
    "mb_single": 1,
    "utilisation_end": 1,
    "utilisation_most": 1,
    "seconds": 3,
}
# What stands in the column of inputs where a row is the sum of several.
OF_ALL = "(sum)"
# What is never a bound.
WITHOUT_BOUNDS = (
    *(it for it in DECIMALS if it not in ("mb_most", "mb_peak", "mb_valley")),
    "percent_end", "percent_most", "percent_peak", "percent_valley",
)
# As text, the columns without --columns and --wide: these, two of memory, the first of each kind that is known, and
# these counts.
FEW = ("list", "trace", "type", "mark", "ran", "rules")
FEW_COUNTS = ("carriers_end", "created", "failed", "stopped", "undone", "status", "said")
# With --wide these are left out as text; and in any text these where no run has anything to say there, these where it is
# not known of any, and these where all say the same.
HIDDEN = (
    "flags", "units_end", "units_most", "utilisation_each", "mb_single", "failed_space", "failed_numbers",
    "percent_end", "percent_most", "percent_peak", "percent_valley",
)
IF_ANY = ("status", "said", "stopped", "undone")
IF_KNOWN = ("mb_peak", "mb_valley")
IF_SEVERAL = ("trace", "type", "mark")
OF_WORDS = ("list", "flags", "trace", "type", "ran", "rules", "mark", "utilisation_each", "said")
