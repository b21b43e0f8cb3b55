%% What node_load.escript and record share: the allocators' letters, joining a node, and the flags that a node runs
%% under, as the simulator takes them.
-module(node_flags).
-export([allocators/0, connect/3, lines/2]).

allocators() ->
    [{"B", binary_alloc}, {"D", std_alloc}, {"E", ets_alloc}, {"H", eheap_alloc}, {"L", ll_alloc},
     {"R", driver_alloc}, {"S", sl_alloc}, {"T", temp_alloc}].

%% Joins the node as a hidden one, with long names if its host has a dot. It returns ok, or the end of a refusal.
connect(Prefix, Node, Cookie) ->
    case string:split(Node, "@") of
        [[_ | _], [_ | _] = Host] -> connect(Prefix, list_to_atom(Node), Cookie, Host);
        _ -> "no name of a node, as shop@host is"
    end.

connect(Prefix, Node, Cookie, Host) ->
    Domain = case lists:member($., Host) of true -> longnames; false -> shortnames end,
    Own = list_to_atom(Prefix ++ "_" ++ os:getpid() ++ "@" ++ Host),
    case catch net_kernel:start(Own, #{name_domain => Domain, hidden => true, dist_listen => false}) of
        {ok, _} ->
            [erlang:set_cookie(Node, list_to_atom(Cookie)) || Cookie =/= "-"],
            case net_kernel:connect_node(Node) of
                true -> ok;
                _ -> "no connection: is the node up, is this its name and its cookie?"
            end;
        Error -> io_lib:format("this node cannot join: ~0p", [Error])
    end.

%% The line `flags` of an allocator's settings, as the node tells them, and a line `untranslated` for each that the
%% simulator does not have. `mmsbc` and `mmmbc` are left out: they say whence carriers come.
lines(Letter, Options) ->
    Words = [{translated(Name, Value, Options), Name, Value}
             || {Name, Value} <- Options, {Name, Value} =/= {cp, list_to_atom(Letter)}],
    Flags = [[" +M", Letter, atom_to_list(Name), " ", It] || {{ok, It}, Name, _} <- Words],
    Other = [io_lib:format("untranslated +M~ts~ts ~0tp~n", [Letter, Name, Value]) || {no, Name, Value} <- Words],
    [["flags", Flags, "\n"], Other].

%% {ok, Value}, or `no`, or `none` for what is as the simulator has it always.
translated(as, Value, _) -> {ok, atom_to_list(Value)};
translated(ramv, Value, _) -> {ok, atom_to_list(Value)};
translated(Name, Bytes, _) when Name =:= sbct; Name =:= smbcs; Name =:= lmbcs -> kilobytes(Bytes, 1);
translated(Name, Bytes, _) when Name =:= asbcst; Name =:= mmbcs -> kilobytes(Bytes, 0);
translated(Name, Value, _)
  when Name =:= acul; Name =:= acfml; Name =:= mbcgs; Name =:= rsbcst; Name =:= rsbcmt; Name =:= rmbcmt;
       Name =:= mbsd ->
    {ok, integer_to_list(Value)};
translated(acnl, Value, Options) ->
    case proplists:get_value(acul, Options, 0) of
        0 -> none;
        _ when Value >= 1000 -> none;
        _ -> no
    end;
translated(Name, true, _) when Name =:= e; Name =:= t -> none;
translated(atags, false, _) -> none;
translated(acful, 0, _) -> none;
translated(cp, undefined, _) -> none;
translated(Name, _, _) when Name =:= mmsbc; Name =:= mmmbc -> none;
translated(_, _, _) -> no.

%% The manual has no value above 524288 here, which the largest of the node stands for.
kilobytes(Bytes, Least) -> {ok, integer_to_list(min(max(Bytes div 1024, Least), 524288))}.
