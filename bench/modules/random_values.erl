%% random_values:main([File, Type, Count]): random values of a type of a module, whose file has its name: TYPE.uper and
%% TYPE.aper get their encodings by Erlang's asn1ct in hexadecimal, one a line.
-module(random_values).
-export([main/1]).
main([File, Type, Count]) ->
    T = list_to_atom(Type), N = list_to_integer(Count),
    Mod = list_to_atom(filename:basename(File, ".asn")),
    lists:foreach(fun({Dir, Rule}) ->
        filelib:ensure_dir(Dir ++ "/x"),
        ok = asn1ct:compile(File, [Rule, {outdir, Dir}, noobj, {i, "."}])
    end, [{"u", uper}, {"a", per}]),
    load("u", Mod),
    Values = values(Mod, T, N, []),
    lists:foreach(fun({Dir, Out}) ->
        load(Dir, Mod),
        {ok, F} = file:open(Out, [write]),
        lists:foreach(fun(V) ->
            case catch Mod:encode(T, V) of
                {ok, B} -> io:format(F, "~s~n", [hex(B)]);
                E -> io:format(F, "! ~P~n", [E, 12])
            end end, Values),
        file:close(F)
    end, [{"u", Type ++ ".uper"}, {"a", Type ++ ".aper"}]),
    halt().
load(Dir, Mod) ->
    {ok, _} = compile:file(Dir ++ "/" ++ atom_to_list(Mod), [{outdir, Dir}]),
    code:purge(Mod), code:delete(Mod),
    {module, _} = code:load_abs(filename:absname(Dir ++ "/" ++ atom_to_list(Mod))).
values(_M, _T, 0, Acc) -> lists:reverse(Acc);
values(M, T, N, Acc) ->
    case catch asn1ct:value(M, T, [{i, "u"}]) of
        {ok, V} -> values(M, T, N - 1, [V | Acc]);
        E -> io:format("~P~n", [E, 30]), halt(1)
    end.
hex(B) -> [io_lib:format("~2.16.0B", [X]) || <<X>> <= B].
