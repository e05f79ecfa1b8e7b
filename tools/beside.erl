%% The machines that `bench` measures, as gen_statem has them.
-module(beside).
-behaviour(gen_statem).
-export([main/1, callback_mode/0, init/1, handle_event/4]).

callback_mode() -> handle_event_function.

init(Next) -> {ok, 0, Next}.

handle_event(cast, keep, _, _) -> keep_state_and_data;
handle_event(internal, keep, _, _) -> keep_state_and_data;
handle_event(cast, {insert, Count}, _, _) ->
    {keep_state_and_data, [{next_event, internal, keep} || _ <- lists:seq(1, Count)]};
handle_event(info, {next, Next}, _, _) -> {keep_state, Next};
handle_event(info, {pass, 0, Who}, _, _) -> Who ! done, keep_state_and_data;
handle_event(info, {pass, Left, Who}, _, Next) -> Next ! {pass, Left - 1, Who}, keep_state_and_data;
handle_event({call, From}, answer, _, _) -> {keep_state_and_data, [{reply, From, ok}]}.

started() -> {ok, Machine} = gen_statem:start(?MODULE, none, []), Machine.

line("service", Count, Many) ->
    Machines = [started() || _ <- lists:seq(1, Many)],
    [gen_statem:cast(Machine, {insert, Count}) || Machine <- Machines],
    [ok = gen_statem:call(Machine, answer, infinity) || Machine <- lists:reverse(Machines)];
line("casts", Count, _) ->
    Machine = started(),
    [gen_statem:cast(Machine, keep) || _ <- lists:seq(1, Count)],
    gen_statem:call(Machine, answer, infinity);
line("calls", Count, _) ->
    Machine = started(),
    [ok = gen_statem:call(Machine, answer, infinity) || _ <- lists:seq(1, Count)];
line("ring", Count, Many) ->
    Machines = [First | Others] = [started() || _ <- lists:seq(1, Many)],
    [Machine ! {next, Next} || {Machine, Next} <- lists:zip(Machines, Others ++ [First])],
    First ! {pass, Count, self()},
    receive done -> ok end.

main([Line, Count, Many]) ->
    {_, _} = statistics(runtime),
    Begun = erlang:monotonic_time(microsecond),
    line(Line, list_to_integer(Count), list_to_integer(Many)),
    Ended = erlang:monotonic_time(microsecond),
    {_, Runtime} = statistics(runtime),
    io:format("~.3f ~.3f~n", [Runtime / 1000, (Ended - Begun) / 1000000]),
    halt().
