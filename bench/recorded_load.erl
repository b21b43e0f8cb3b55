%% The load of bench/was_it_true: processes that allocate blocks of chance sizes up to a peak and free most of them,
%% twice, with a mark at each peak and valley. The blocks are binaries, or the rows of a table themselves; all stand in
%% one table, and each process frees some of its neighbour's: of its own it hands over one in five.
-module(recorded_load).
-export([run/4]).

-define(CHURN, 25).
-define(VALLEY, 20).

%% Of binaries or of rows, Live blocks in all at the peaks, of so many processes; all chance comes from the seed and
%% their numbers.
run(Kind, Seed, Processes, Live) ->
    Table = ets:new(blocks, [public, {write_concurrency, true}]),
    Own = self(),
    Each = Live div Processes,
    Workers = [spawn_link(fun() -> work(Own, {Kind, Table}, It, {Seed, It, 7}, Each) end) || It <- lists:seq(1, Processes)],
    [phase(Workers, Phase, Mark) || {Phase, Mark} <- [{grow, "peak-1"}, {shrink, "valley-1"},
                                                      {grow, "peak-2"}, {shrink, "valley-2"}]],
    [exit(It, kill) || It <- Workers, unlink(It)],
    ok.

%% All processes do a phase beside each other; when they are done, and nothing is left to collect, there is a mark.
phase(Workers, Phase, Mark) ->
    [It ! {Phase, Neighbour} || {It, Neighbour} <- lists:zip(Workers, tl(Workers) ++ [hd(Workers)])],
    [receive {It, done} -> ok end || It <- Workers],
    [erlang:garbage_collect(It) || It <- Workers],
    erlang:garbage_collect(),
    timer:sleep(300),
    record_node:mark(Mark).

work(Own, Place, Number, Seed, Each) ->
    work(Own, Place, Number, Each, [], rand:seed_s(exsss, Seed), 1).

%% Held are the keys of the blocks that this process is to free.
work(Own, {_, Table} = Place, Number, Each, Held, State, Next) ->
    receive
        {grow, Neighbour} ->
            {Grown, State1, Next1} = grow(Place, Number, Each, Held, State, Next),
            Given = [Key || {_, At} = Key <- Grown, At rem 5 =:= 0],
            Neighbour ! {given, Given},
            Own ! {self(), done},
            work(Own, Place, Number, Each, Grown -- Given, State1, Next1);
        {shrink, _} ->
            {Left, State1} = shrink(Table, Each * ?VALLEY div 100, shuffled(Held, State)),
            Own ! {self(), done},
            work(Own, Place, Number, Each, Left, State1, Next);
        {given, Keys} ->
            work(Own, Place, Number, Each, Keys ++ Held, State, Next)
    end.

grow(_, _, Each, Held, State, Next) when length(Held) >= Each -> {Held, State, Next};
grow({Kind, Table} = Place, Number, Each, Held, State, Next) ->
    Key = {Number, Next},
    {Size, State1} = size_of(State),
    ets:insert(Table, {Key, made(Kind, Size)}),
    Next rem 10 =:= 0 andalso erlang:garbage_collect(),
    {Percent, State2} = rand:uniform_s(100, State1),
    {Left, State3} = case Percent =< ?CHURN of
        true -> freed(Table, [Key | Held], State2);
        false -> {[Key | Held], State2}
    end,
    grow(Place, Number, Each, Left, State3, Next + 1).

%% From 128 bytes to 256 kB, each factor of two as likely.
size_of(State) ->
    {Power, State1} = rand:uniform_real_s(State),
    {round(math:pow(2, 7 + 11 * Power)), State1}.

%% A binary, or a tuple of so many bytes, which a row of the table has as its own.
made(binaries, Size) -> binary:copy(<<0>>, Size);
made(rows, Size) -> erlang:make_tuple(Size div 8, 0).

freed(Table, Held, State) ->
    {At, State1} = rand:uniform_s(length(Held), State),
    {Front, [Key | Rest]} = lists:split(At - 1, Held),
    ets:delete(Table, Key),
    {Front ++ Rest, State1}.

shrink(_, Goal, {Held, State}) when length(Held) =< Goal -> {Held, State};
shrink(Table, Goal, {[Key | Rest], State}) ->
    ets:delete(Table, Key),
    shrink(Table, Goal, {Rest, State}).

shuffled(Held, State) ->
    {Pairs, State1} = lists:mapfoldl(fun(Key, It) -> {Random, Then} = rand:uniform_s(It), {{Random, Key}, Then} end,
                                     State, Held),
    {[Key || {_, Key} <- lists:sort(Pairs)], State1}.
