%% What tools/record loads into a node: it records through record.c, and asks the node for the figures of its carriers
%% before, at marks and at the end. A load that the node runs may set marks itself, by record_node:mark("peak").
-module(record_node).
-export([load/1, table/0, start/2, count/0, keep/1, stop/0, write/2]).
-export([record/3, mark/1, finish/2, options/1, super_carrier/0]).
-nifs([table/0, start/2, count/0, keep/1, stop/0, write/2]).

load(Path) -> erlang:load_nif(Path, 0).

table() -> erlang:nif_error(not_loaded).
start(_Events, _Numbers) -> erlang:nif_error(not_loaded).
count() -> erlang:nif_error(not_loaded).
keep(_Told) -> erlang:nif_error(not_loaded).
stop() -> erlang:nif_error(not_loaded).
write(_Path, _Letters) -> erlang:nif_error(not_loaded).

%% Begins to record these allocators, [{Number, Letter, Type}], and ends it when Owner, a node, is gone. It returns the
%% number of the node's process and of its file with the events.
record(Owner, Events, Allocators) ->
    Asking = self(),
    {Pid, Monitor} = spawn_monitor(fun() -> begin_recording(Asking, Owner, Events, Allocators) end),
    receive
        {Pid, Answer} ->
            erlang:demonitor(Monitor, [flush]),
            Answer;
        {'DOWN', Monitor, process, Pid, Reason} ->
            {error, Reason}
    end.

begin_recording(Asking, Owner, Events, Allocators) ->
    Registered = try register(?MODULE, self()) catch error:badarg -> false end,
    [monitor_node(Owner, true) || Owner =/= node()],
    Types = [{Letter, Type} || {_, Letter, Type} <- Allocators],
    First = {0, "begin", figures(Types)},
    Started = case Registered of
        true -> start(Events, [Number || {Number, _, _} <- Allocators]);
        false -> {error, busy}
    end,
    case Started of
        {ok, File} ->
            keep_mark(First),
            Asking ! {self(), {ok, os:getpid(), File}},
            serve(Types, [First]);
        _ -> Asking ! {self(), Started}
    end.

%% For the case that the node ends before the recording.
keep_mark(Mark) ->
    Told = term_to_binary(Mark),
    keep(<<(byte_size(Told)):32, Told/binary>>).

%% Answers those that set marks, until recording is to end.
serve(Types, Marks) ->
    receive
        {mark, From, Name} ->
            {Events, _} = count(),
            Marked = {Events, Name, figures(Types)},
            keep_mark(Marked),
            From ! {?MODULE, marked},
            serve(Types, [Marked | Marks]);
        {finish, From} ->
            stop(),
            {Events, _} = count(),
            From ! {?MODULE, lists:reverse(Marks, [{Events, "end", figures(Types)}])};
        {nodedown, _} ->
            %% Nobody is there to whom it could be told; the memory is given back.
            stop(),
            write("/dev/null", lists:duplicate(16, $?))
    end.

ask(Message) ->
    case whereis(?MODULE) of
        undefined -> {error, not_recording};
        Pid ->
            Monitor = monitor(process, Pid),
            Pid ! Message,
            receive
                {?MODULE, Answer} ->
                    demonitor(Monitor, [flush]),
                    Answer;
                {'DOWN', Monitor, process, Pid, Reason} ->
                    {error, Reason}
            end
    end.

%% Sets a mark: what the node says of its carriers after so many events.
mark(Name) -> ask({mark, self(), Name}).

%% Ends the recording, and writes the events. It returns the marks and the threads.
finish(Path, Letters) ->
    case ask({finish, self()}) of
        {error, Reason} -> {error, Reason};
        Marks ->
            case write(Path, Letters) of
                {ok, Threads} -> {ok, Marks, Threads};
                Error -> Error
            end
    end.

%% For each allocator and instance the carriers and their bytes of mbcs, of the pool and of sbcs, and all blocks and
%% their bytes.
figures(Types) ->
    [{Letter, Instance, figures_of(Type, Facts)}
     || {Letter, Type} <- Types, {instance, Instance, Facts} <- erlang:system_info({allocator, Type})].

figures_of(Type, Facts) ->
    Parts = [proplists:get_value(It, Facts, []) || It <- [mbcs, mbcs_pool, sbcs]],
    Carriers = [now_of(It, Part) || Part <- Parts, It <- [carriers, carriers_size]],
    Blocks = [proplists:get_value(Type, proplists:get_value(blocks, Part, []), []) || Part <- Parts],
    Carriers ++ [lists:sum([now_of(It, Block) || Block <- Blocks]) || It <- [count, size]].

%% The first number after a word: how it is now.
now_of(Word, Facts) ->
    case lists:keyfind(Word, 1, Facts) of
        false -> 0;
        Found -> element(2, Found)
    end.

%% The settings of a scheduler's instance, or of the one that there is.
options(Type) ->
    case erlang:system_info({allocator, Type}) of
        Instances when is_list(Instances) ->
            {instance, _, Facts} = lists:last([It || It <- Instances, element(1, It) =:= instance]),
            proplists:get_value(options, Facts, []);
        _ -> []
    end.

%% The megabytes of the super carrier; 0 where there is none.
super_carrier() ->
    {_, _, _, Facts} = erlang:system_info(allocator),
    proplists:get_value(scs, proplists:get_value(erts_mmap, Facts, []), 0) div 1048576.
