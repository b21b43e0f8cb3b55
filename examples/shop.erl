%% The load of shop.record: eight parts of a shop keep what was asked for last, as binaries, through a day of four
%% phases. tools/record ran it on a node of its own:
%%   tools/record --start '+S 4:4' binary_alloc shop.record --path . --eval 'shop:load().'
-module(shop).
-export([load/0]).

-define(PARTS, 8).
%% How many binaries each part keeps at the end of a phase, and how many it makes in it.
-define(DAY, [{"morning", 30, 45}, {"noon", 75, 90}, {"evening", 40, 60}, {"night", 10, 15}]).

load() ->
    Own = self(),
    Parts = [spawn_link(fun() -> part(Own, [], rand:seed_s(exsss, {It, 7, 64})) end) || It <- lists:seq(1, ?PARTS)],
    [phase(Parts, Phase) || Phase <- ?DAY].

%% All parts work through a phase beside each other; when they are done there is a mark.
phase(Parts, {Name, Kept, Made}) ->
    [It ! {work, Kept, Made, Next} || {It, Next} <- lists:zip(Parts, tl(Parts) ++ [hd(Parts)])],
    [receive {It, done} -> ok end || It <- Parts],
    [erlang:garbage_collect(It) || It <- Parts],
    timer:sleep(200),
    record_node:mark(Name).

part(Own, Held, State) ->
    receive
        {work, Kept, Made, Next} ->
            {Then, State1} = work(Held, State, Kept, Made, Next),
            Own ! {self(), done},
            part(Own, Then, State1);
        {over, Binary} ->
            part(Own, [Binary | Held], State)
    end.

%% Makes one binary after the other, hands one in five to the next part, and drops one where more are held than are to
%% be kept.
work(Held, State, Kept, 0, _) -> dropped(Held, State, Kept);
work(Held, State, Kept, Made, Next) ->
    {Size, State1} = size_of(State),
    Binary = binary:copy(<<0>>, Size),
    All = case Made rem 5 of
        0 -> Next ! {over, Binary}, Held;
        _ -> [Binary | Held]
    end,
    {Left, State2} = dropped(All, State1, Kept + Made div 4),
    Made rem 6 =:= 0 andalso erlang:garbage_collect(),
    timer:sleep(1),
    work(Left, State2, Kept, Made - 1, Next).

%% Drops chance ones until so many are left.
dropped(Held, State, Kept) when length(Held) =< Kept -> {Held, State};
dropped(Held, State, Kept) ->
    {At, State1} = rand:uniform_s(length(Held), State),
    {Before, [_ | Rest]} = lists:split(At - 1, Held),
    dropped(Before ++ Rest, State1, Kept).

%% A session of up to 4 kB, a page of up to 64 kB, or an image of up to 700 kB.
size_of(State) ->
    {Percent, State1} = rand:uniform_s(100, State),
    {Least, Most} = if
        Percent =< 68 -> {100, 4000};
        Percent =< 94 -> {8000, 64000};
        true -> {100000, 700000}
    end,
    {Chance, State2} = rand:uniform_s(Most - Least, State1),
    {Least + Chance, State2}.
