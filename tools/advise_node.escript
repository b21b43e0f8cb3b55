#!/usr/bin/env escript
%% -*- erlang -*-
%%! +Bd
%% Tells tools/advise the figures of a node's allocators: see --help.
-mode(compile).

-define(EVERY, 500).
-define(MILLISECONDS, 60000).

main(["--help"]) ->
    io:put_chars(usage());
main(Words) ->
    try
        load_beside("node_flags"),
        look(Words)
    catch
        throw:{words, Line} -> stop(2, Line ++ " (see --help)");
        throw:Line -> stop(1, Line);
        _:Reason:Stack -> stop(1, io_lib:format("it met what it does not know: ~0P", [{Reason, Stack}, 20]))
    end.

usage() ->
    "usage: escript tools/advise_node.escript NODE COOKIE\n"
    "       escript tools/advise_node.escript --start 'FLAGS' --path DIR --eval 'LOAD' --seconds N\n"
    "\n"
    "Writes what a node says of its allocators, for tools/advise: of one that runs once, or twice a second\n"
    "of one that it starts under FLAGS, which runs LOAD, until that is over, or N seconds are. For each\n"
    "time there is a line, and after it one for each allocator:\n"
    "\n"
    "  sample MILLISECONDS RSS               of the node's process, in kB, 0 if that is not known\n"
    "  allocator X CARRIERS BLOCKS CARRIERS BLOCKS\n"
    "                                        bytes of carriers and in blocks, first of the instances of\n"
    "                                        schedulers, then of the one of all other threads\n"
    "\n"
    "Nothing is recorded, and nothing is put between the node and its allocators.\n"
    "Statuses: 0; 1 if the node does not tell; 2 for other words than these.\n".

stop(Status, Line) ->
    io:format(standard_error, "advise: ~ts~n", [Line]),
    halt(Status).

refuse(Form, Values) -> throw(lists:flatten(io_lib:format(Form, Values))).

%% A module whose source lies beside this file.
load_beside(Name) ->
    Path = filename:join(filename:dirname(escript:script_name()), Name),
    case compile:file(Path, [binary, return_errors]) of
        {ok, Module, Code} ->
            {module, _} = code:load_binary(Module, Path, Code),
            {Module, Path, Code};
        _ -> refuse("~ts.erl: it is not there beside advise_node.escript, or it does not compile", [Path])
    end.

look([Node, Cookie]) ->
    case node_flags:connect("advise", Node, Cookie) of
        ok -> ok;
        Line -> refuse("~ts: ~ts", [Node, Line])
    end,
    Target = list_to_atom(Node),
    Ask = fun(Module, Name, Values) -> erpc:call(Target, Module, Name, Values, ?MILLISECONDS) end,
    tell(Ask, pid_of(Ask), 0);
look(["--start", Flags, "--path", Folder, "--eval", Text, "--seconds", Seconds]) ->
    Expressions = expressions(Text),
    {ok, _} = application:ensure_all_started(stdlib),
    Words = string:lexemes(Flags, " ") ++ ["-pa", filename:absname(Folder)],
    case catch peer:start_link(#{connection => standard_io, args => Words}) of
        {ok, Peer, _} -> run(Peer, Expressions, 1000 * list_to_integer(Seconds));
        _ -> refuse("the node does not start under ~ts: do these flags start `erl`?", [Flags])
    end;
look(_) ->
    throw({words, "NODE COOKIE are due, or --start FLAGS --path DIR --eval LOAD --seconds N"}).

expressions(Text) ->
    {ok, Tokens, _} = erl_scan:string(Text),
    case erl_parse:parse_exprs(Tokens) of
        {ok, Expressions} -> Expressions;
        {error, {_, Module, Why}} -> refuse("--eval: ~ts", [Module:format_error(Why)])
    end.

%% The load may set marks, as it does for tools/record: without a recording these do nothing.
run(Peer, Expressions, Most) ->
    Ask = fun(Module, Name, Values) -> peer:call(Peer, Module, Name, Values, infinity) end,
    {Module, Path, Code} = load_beside("record_node"),
    {module, _} = Ask(code, load_binary, [Module, Path, Code]),
    Own = self(),
    Load = spawn_link(fun() ->
        Own ! {self(), try Ask(erl_eval, exprs, [Expressions, []]), over catch _:Reason -> Reason end}
    end),
    Begin = erlang:monotonic_time(millisecond),
    follow(Ask, pid_of(Ask), Load, Begin, Begin + Most).

follow(Ask, Pid, Load, Begin, End) ->
    Now = erlang:monotonic_time(millisecond),
    tell(Ask, Pid, Now - Begin),
    receive
        {Load, over} -> ok;
        {Load, Reason} -> refuse("the load failed (~0P)", [Reason, 8])
    after ?EVERY ->
        Now >= End orelse follow(Ask, Pid, Load, Begin, End)
    end.

pid_of(Ask) -> Ask(os, getpid, []).

tell(Ask, Pid, Milliseconds) ->
    io:format("sample ~b ~b~n", [Milliseconds, resident(Pid)]),
    [io:format("allocator ~ts ~b ~b ~b ~b~n", [Letter | sums(Ask(erlang, system_info, [{allocator, Type}]))])
     || {Letter, Type} <- node_flags:allocators()].

%% What the system says of the process, if it is of this machine.
resident(Pid) ->
    case file:read_file("/proc/" ++ Pid ++ "/status") of
        {ok, Text} ->
            case re:run(Text, "VmRSS:\\s*([0-9]+)", [{capture, all_but_first, list}]) of
                {match, [Number]} -> list_to_integer(Number);
                nomatch -> 0
            end;
        _ -> 0
    end.

%% Bytes of carriers and of blocks, of the schedulers' instances and of instance 0. An allocator that is off has none.
sums(Instances) when is_list(Instances) ->
    Parts = [{Number =/= 0, Part} || {instance, Number, Facts} <- Instances, It <- [mbcs, mbcs_pool, sbcs],
                                     {_, Part} <- [lists:keyfind(It, 1, Facts)], is_list(Part)],
    [lists:sum([What(Part) || {Is, Part} <- Parts, Is =:= Of])
     || Of <- [true, false], What <- [fun carriers/1, fun blocks/1]];
sums(_) -> [0, 0, 0, 0].

carriers(Part) -> now_of(carriers_size, Part).

blocks(Part) -> lists:sum([now_of(size, Facts) || {_, Facts} <- proplists:get_value(blocks, Part, [])]).

%% The first number after a word: how it is now.
now_of(Word, Facts) ->
    case lists:keyfind(Word, 1, Facts) of
        false -> 0;
        Found -> element(2, Found)
    end.
