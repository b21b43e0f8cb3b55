#!/usr/bin/env escript
%% -*- erlang -*-
%% Writes what a live node tells of the blocks and carriers of one allocator, for tools/load:
%% see --help, and docs/guide.md.
-mode(compile).

%% The most intervals that instrument takes.
-define(WIDTH, 32).
%% A scan of a large node takes a while.
-define(MILLISECONDS, 600000).

main(["--help"]) ->
    io:put_chars(usage());
main([Node, Cookie, Word, File]) ->
    try
        load_beside("node_flags"),
        {Letter, Type} = allocator(Word),
        case node_flags:connect("node_load", Node, Cookie) of
            ok -> ok;
            Line -> refuse("~ts: ~ts", [Node, Line])
        end,
        write(File, load(list_to_atom(Node), Letter, Type))
    catch
        throw:Refused -> stop(1, Refused);
        _:Reason -> stop(1, io_lib:format("~ts: it tells what this does not know: ~0P", [Node, Reason, 9]))
    end;
main(_) ->
    stop(2, "four words are due: NODE COOKIE ALLOCATOR FILE (see --help)").

usage() ->
    "usage: escript tools/node_load.escript NODE COOKIE ALLOCATOR FILE\n"
    "\n"
    "Asks a live node for the sizes of the blocks of an allocator, and for its carriers, and writes\n"
    "them to FILE as docs/reference/tools.md says ('load'). tools/load makes a trace of it.\n"
    "\n"
    "NODE       the node's name as node() tells it, as shop@host or shop@host.example.org\n"
    "COOKIE     its cookie; - for the one of ~/.erlang.cookie, which no list of processes shows\n"
    "ALLOCATOR  binary_alloc, std_alloc, ets_alloc, eheap_alloc, ll_alloc, driver_alloc, sl_alloc\n"
    "           or temp_alloc; or its letter, of B D E H L R S T\n"
    "FILE       what is written; one that is there is only replaced when all was told\n"
    "\n"
    "The node must have the module instrument, of the application tools. Blocks are only counted\n"
    "where they have tags: those of binary_alloc and driver_alloc have them, for another give the\n"
    "node its flag, +MHatags true for eheap_alloc say, or +Muatags true for all but temp_alloc.\n"
    "\n"
    "This needs Erlang/OTP 25 or later, and joins the node as a hidden one that listens nowhere.\n"
    "Statuses: 0; 1 if the node does not tell; 2 for other words than these.\n".

stop(Status, Line) ->
    io:format(standard_error, "node_load: ~ts~n", [Line]),
    halt(Status).

refuse(Form, Values) ->
    throw(lists:flatten(io_lib:format(Form, Values))).

%% A module whose source lies beside this file.
load_beside(Name) ->
    Path = filename:join(filename:dirname(escript:script_name()), Name),
    case compile:file(Path, [binary]) of
        {ok, Module, Code} -> {module, _} = code:load_binary(Module, Path, Code);
        _ -> refuse("~ts.erl: it is not there beside node_load.escript, or it does not compile", [Path])
    end.

allocator(Word) ->
    case [Pair || {Letter, Type} = Pair <- node_flags:allocators(), lists:member(Word, [Letter, atom_to_list(Type)])] of
        [Pair] -> Pair;
        [] -> refuse("~ts: no allocator of this name (see --help)", [Word])
    end.

%% A file has its name only when it is whole. A link is followed, and a device written to as it is.
write(File, Text) ->
    Plain = not filelib:is_file(File) orelse filelib:is_regular(File) andalso file:read_link(File) =:= {error, einval},
    Beside = case Plain of true -> File ++ "." ++ os:getpid(); false -> File end,
    Written = case file:write_file(Beside, Text) of
        ok when Plain -> file:rename(Beside, File);
        Other -> Other
    end,
    case Written of
        ok -> ok;
        {error, Reason} ->
            Plain andalso file:delete(Beside),
            refuse("~ts: ~ts", [File, file:format_error(Reason)])
    end.

ask(Node, Module, Function, Words) ->
    case rpc:call(Node, Module, Function, Words, ?MILLISECONDS) of
        {badrpc, {'EXIT', {undef, _}}} ->
            refuse("~ts: the node has no ~ts:~ts/~b (the application tools is wanted there)",
                   [Node, Module, Function, length(Words)]);
        {badrpc, Reason} -> refuse("~ts: ~ts: ~0P", [Node, Function, Reason, 8]);
        {error, Reason} -> refuse("~ts: ~ts: ~0p", [Node, Function, Reason]);
        Told -> Told
    end.

load(Node, Letter, Type) ->
    Instances = case ask(Node, erlang, system_info, [{allocator, Type}]) of
        [_ | _] = Some -> [Facts || {instance, _, Facts} <- Some];
        _ -> refuse("~ts: ~ts is not enabled", [Node, Type])
    end,
    Tagged = [true || Facts <- Instances, {options, Set} <- Facts, {atags, true} <- Set],
    [refuse("~ts: the blocks of ~ts have no tags: start the node with +M~tsatags true",
            [Node, Type, Letter]) || Tagged =:= []],
    Scans = [scan(Node, Type, Start) || Start <- [1, 5, 3, 7]],
    {ok, Carriers} = ask(Node, instrument, carriers, [options(Type, 1)]),
    ["node-load 1\n",
     io_lib:format("# ~ts of ~ts, OTP ~ts, ~ts\n",
                   [Type, Node, ask(Node, erlang, system_info, [otp_release]),
                    calendar:system_time_to_rfc3339(erlang:system_time(second), [{offset, "Z"}])]),
     io_lib:format("type ~ts\n", [Letter]),
     io_lib:format("schedulers ~b\n", [ask(Node, erlang, system_info, [schedulers])]),
     io_lib:format("calls ~b ~b ~b\n", calls(Type, Instances)),
     node_flags:lines(Letter, hd([Set || Facts <- lists:reverse(Instances), {options, Set} <- Facts])),
     blocks(Scans),
     [carrier(It) || It <- element(2, Carriers)]].

%% How often the allocator's instances were called to allocate, to reallocate and to free, since the
%% node started. A count is told as thousands of millions and the rest.
calls(Type, Instances) ->
    Stem = string:replace(atom_to_list(Type), "_alloc", ""),
    [lists:sum([Much * 1000000000 + Rest
                || Facts <- Instances, {calls, Counts} <- Facts, {Name, Much, Rest} <- Counts,
                   atom_to_list(Name) =:= lists:flatten([Stem, End])])
     || End <- ["_alloc", "_realloc", "_free"]].

options(Type, Start) ->
    #{allocator_types => [Type], histogram_start => Start, histogram_width => ?WIDTH}.

%% The bytes that were not scanned, and of the blocks of all origins and types how many have at
%% least Start * 2^At bytes, for At from 0 on. OTP counts a block of so many bytes in the interval
%% log2(bytes div Start + 1), rounded down; sizes are multiples of 8, so from At = 3 on the interval
%% begins at Start * 2^At.
scan(Node, Type, Start) ->
    {ok, {_, Unscanned, Origins}} = ask(Node, instrument, allocations, [options(Type, Start)]),
    Histograms = [tuple_to_list(It) || Types <- maps:values(Origins), It <- maps:values(Types)],
    Sum = fun(One, Other) -> lists:zipwith(fun erlang:'+'/2, One, Other) end,
    Counts = lists:foldl(Sum, lists:duplicate(?WIDTH, 0), Histograms),
    {_, AtLeast} = lists:foldr(fun(It, {All, Rest}) -> {All + It, [All + It | Rest]} end, {0, []}, Counts),
    {Unscanned, list_to_tuple(AtLeast ++ [0])}.

%% How many blocks lie between two powers of two is of the first scan. The others, a moment later,
%% say how these are spread over the four quarters between the two.
blocks([{Unscanned, One} | Others]) ->
    [io_lib:format("unscanned ~b\n", [Unscanned]),
     slot("blocks", 0, 24, element(1, One) - element(6, One)),
     [quarters(At, One, [scaled(It, One) || {_, It} <- Others]) || At <- lists:seq(5, ?WIDTH - 1)]].

scaled(Sums, One) ->
    list_to_tuple([It * element(1, One) div max(element(1, Sums), 1) || It <- tuple_to_list(Sums)]).

quarters(At, One, [Five, Three, Seven]) ->
    All = element(At + 1, One),
    Above = element(At + 2, One),
    From5 = max(min(element(At - 1, Five), All), Above),
    From6 = max(min(element(At, Three), From5), Above),
    From7 = max(min(element(At - 1, Seven), From6), Above),
    Quarter = 1 bsl (At - 2),
    [slot("blocks", Quarter * Begin, Quarter * (Begin + 1) - 8, Count)
     || {Begin, Count} <- [{4, All - From5}, {5, From5 - From6}, {6, From6 - From7}, {7, From7 - Above}]].

carrier({_, Pooled, Size, Unscanned, Blocks, Gaps}) ->
    [io_lib:format("carrier ~b ~ts ~b ~b ~b\n",
                   [Size, case Pooled of true -> "pooled"; false -> "used" end,
                    lists:sum([Count || {_, Count, _} <- Blocks]),
                    lists:sum([Bytes || {_, _, Bytes} <- Blocks]), Unscanned]),
     %% A gap is counted one interval lower than a block of its size.
     [slot("gaps", 2 bsl At, (4 bsl At) - 8, Count)
      || {At, Count} <- lists:enumerate(0, tuple_to_list(Gaps))]].

slot(_, _, _, 0) -> "";
slot(Word, Low, High, Count) -> io_lib:format("~ts ~b ~b ~b\n", [Word, Low, High, Count]).
