#!/usr/bin/env escript
%% p1_pgsql: escript with_erlang.escript PORT
main([Port]) ->
    {ok, It} = pgsql:connect([{host, "127.0.0.1"}, {port, list_to_integer(Port)}, {database, "bank"}, {user, "clerk"}, {password, ""}, {as_binary, true}]),
    {ok, _} = pgsql:squery(It, "CREATE TABLE stock (id INTEGER PRIMARY KEY, pieces INTEGER RESERVABLE CHECK (pieces >= 0), name VARCHAR2(20))"),
    {ok, _} = pgsql:squery(It, "INSERT INTO stock VALUES (1, 5, 'tea')"),
    {ok, [<<"UPDATE 1">>]} = pgsql:squery(It, "UPDATE stock SET pieces = pieces - 2 WHERE id = 1"),
    {ok, [{<<"SELECT 1">>, _, [[<<"1">>, <<"3">>, <<"tea">>]]}]} = pgsql:squery(It, "SELECT * FROM stock"),
    {ok, [{error, _}]} = pgsql:squery(It, "UPDATE stock SET pieces = pieces - 9 WHERE id = 1"),
    pgsql:terminate(It),
    io:format("5 checks~n").
