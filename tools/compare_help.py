"""What tools/compare --help says around its options."""

DESCRIPTION = """\
Runs each trace under each list of flags, and writes one table with a line for each: which flags suit this load?
It runs the built program and places nothing itself. The program is proved; this tool is not.

Lists of flags are files with the words of one list each, as examples/*.flags; alternatives: each --try has the flags of
one further list, and the list without them is a line, too; or a grid: each --each has a flag and its values, and all
combinations are run. Each file is combined with all alternatives and with the whole grid, whose words come after its
own, so that they hold. Flags that all lists begin with stand after --. Traces come before --flags, or after -- where no
flags stand there. In place of a trace there may be an input of several allocator types: the program is run with the
word `types` before the flags, and the table has a line for each type. So it is with recorded operations and the word
`recorded`; where no +S is given, these are run with as many schedulers as they have.

  tools/compare shop.input --flags node.flags --try '+MBsbct 64' --try '+MBsbct 64 +MBlmbcs 512'
  tools/compare examples/busy-days.trace --each '+MHas gf bf' --each '+MHsbct 256 512' -- +MHacul 0 +MHlmbcs 512

A list is read as a node reads it, from left to right. `as` bf, aobf, gf or af sets the `acul` of its letter to 0 at its
place, and an `acul` above 0 after it makes it aoffcbf. Without `as`, `acul` 0 brings back the allocator's own strategy:
gf for H and S, aobf for L, else bf. Without `acul` it is 45 for H, 85 for L and else 60. T has no acul, is af without
+MTas, and is not one of +Mu; for another letter af is gf. A value may be joined to its flag: +MHasbf. The column `ran`
says what ran, and `flags` has the words for the program, where that is said by flags that come last. With --reading run
lists are read as ./run reads them.

As text the first list stands first: give the node's own one first. Percent are of its figures. The others are sorted by
their memory. There are two columns of memory: where the input has comments `# mark peak..` and `# mark valley..`, as
tools/load writes them, the columns are mb_peak and mb_valley; else they are mb_most, if it is known, and mb_end. --wide
has nearly all columns; CSV and JSON have all.
"""

EPILOG = """\
The program. Without --program it is the one that ./run takes, at the top of the checkout that this tool stands in: a
proved one of these sources where there is one, else one that is compiled in two minutes, without a proof, and takes up
to twice the time. Standard error says so.

What to look at. Memory is that of the two columns: a list that keeps few carriers may keep large ones, so carriers_most
says nothing of it. A block in a singleblock carrier (blocks_single) costs a carrier of whole pages, and each allocation
and free of one costs the node calls to the system: a small sbct saves memory by many of them, as `created` tells. Where
allocations failed the table says so below: such lists have less memory for want of what found no place. A node with a
super carrier keeps what it once took of the system, whatever the flags: there compare peaks.

Columns:
{columns}

What is not known is '-' (null in JSON, empty in CSV). '<=7' is a bound: 7 or fewer; '>=2' is 2 or more.

What is read from where. All columns but those named below are counts of the text's log entries, or stand in its last
line. The text has no line for a carrier that is created or goes, so these are worked out:

  carriers_most, mb_most, units_most, utilisation_most, abandoned, fetched, returned
      Where the text tells the order of all operations, each is exact, and comes from a replay of the entries: with one
      scheduler, of recorded operations, and under a `schedule` without turns, when each scheduler does all of its
      operations before the next one begins. A carrier is there from the first block that is placed in it until its
      last block is released. How large it is, and whether it was abandoned, the entries do not tell; so a copy of the
      trace is run as well, in which an `info` follows each operation that may have changed that. In this order an
      `info` changes nothing else: no queue has a block then that its scheduler could still release. Before a recorded
      operation that will release queued blocks an `info` of its scheduler does this first. Its figures are compared
      with those of the replay, and the replay's end with the carriers of the text; where they differ, or where the
      copy is longer than a trace may be, it is not used. They differ where a scheduler is stopped within a `realloc`
      that had placed its block: no entry tells that. In the copy a stop comes a step later for each `info` before it.
      'At most' counts what an operation holds while it is under way: the carrier that realloc moves a block to, and
      the one that it leaves. utilisation_most is the greatest after an operation.

  created
      Exact in the same order, and of recorded operations: a block that is placed in a carrier which has none was placed
      in a new one. A block that another scheduler freed is there until the user of its carrier begins an operation.
      What this ends with is compared with the carriers of the text. Where they differ, and by turns or as threads, it
      is a bound: as many as there are numbers of carriers in the text.

  With several schedulers by turns, or as threads, the text has no order between their logs, and a further `info` would
  take turns of its own, so that no copy is run. Then:
  carriers_most  An owner's new carrier has the lowest of its 1024 numbers that is free. So its greatest number in the
                 text tells, exactly, how many it had at most. Their sum over all owners is a bound, since they need
                 not have had them at once; it is exact if one owner alone has carriers, or if all are there at the end.
  units_most, mb_most
                 A bound if carriers cannot migrate and the trace has an `info` after the last block that each
                 scheduler places: the sum of the greatest carriers_size of each. Else '-': the sizes of carriers that
                 are gone stand nowhere.
  utilisation_most
                 '-'
  abandoned, fetched, returned
                 0 if carriers cannot migrate: `acul` is 0. Else bounds from below, of what the text shows: a scheduler
                 that places a block in a carrier of another owner has fetched it; what was fetched, or is pooled at the
                 end, was abandoned; what is returning at the end was returned. '-' if it shows nothing.

Of several allocators at once, types of one input or several recorded inputs, --sum adds a line of their sums to each
list, at each mark that all of them have, or at the end: flags of one letter change nothing for another one, so that one
list has those of all. As text it is there without this word where the inputs are those of one node: all recorded, each
of another letter. What they had at most they need not have had at once, so that its sum is a bound; so is mb_peak,
where --from takes lines without marks.

A scheduler is stopped after steps, of which other flags make another number an operation takes: then runs of one trace
did not do the same, and `undone` says how much is missing.

Of several allocator types each line is of what its type did, by its own part of the text and the trace of its lines
alone; the seconds are those of the whole run. A list of --flags may begin with the word `types`, as those of examples/
do: it counts for nothing, since the input says what it is.

A trace of `generate` has counts in place of logs and carriers: 'at most', the reasons of failed allocations and, if
carriers can migrate, what these did are '-'.
Of recorded operations of several schedulers blocks that others freed are followed through the queues. Where several
blocks of a carrier were released there, and no other was left, nothing tells whether it was abandoned in between:
`abandoned` is a bound then. Where their input has a line `rules`, they run by these rules of a node: the column
`rules`, or a line below the table. --marks tells what was there at each line `# mark NAME` of an input. It comes of one
run where the order is known and the replay is exact. Else the input is run up to each mark, and then the queues are
taken there, as they are in an input of tools/load, which has an `info` of each scheduler before each mark.
As threads a run is one of several that there may be. Seconds are of the plain run, beside others as --jobs says.

What is written when. On a terminal each run is told on standard error as it ends. CSV on standard output has its lines
as soon as they and those before them are there, unless --by sorts them; else the table is written at the end. SIGINT,
SIGTERM and SIGHUP end all runs, and the table has those that had ended: sent to this command alone or to its group,
once or more often. Where nothing takes the table, as on a full disk or a terminal that is gone, its rows go to a new
file compare-NUMBER.json in this folder, or in that for temporary files. --from reads it.

Many lists over several machines: --print-commands prints a line of shell for each run, which runs alone and writes one
file into the folder of --results. With GNU parallel:

  tools/compare load.trace --each '+MHas aoffcbf bf' --each '+MHsbct 256 512' --print-commands -- +MHacul 0 | parallel
  tools/compare --from results/*.json --by mb_most

Status: 0 if all went, 1 if something was refused or failed, which standard error says and the table has a line for,
2 if the words of this command are wrong, 130 if it was interrupted: then the table has the runs that had ended.
"""
