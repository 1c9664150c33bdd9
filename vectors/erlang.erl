%% The codec that Erlang's compiler of ASN.1 makes of the module of ISO 10161-1, as peers.py calls it.
-module(erlang_codec).
-export([convert/0, write/1]).

%% For each message on standard input, of which four octets give the length, writes one octet and an answer of the same form: 1 and the DER of
%% the message, or 0 and why there is none.
convert() ->
    ok = io:setopts(standard_io, [binary]),
    convert_next().

convert_next() ->
    case file:read(standard_io, 4) of
        {ok, <<Size:32>>} ->
            put_answer(catch der_of(octets(Size))),
            convert_next();
        eof ->
            ok
    end.

%% Writes the DER of as many random messages, in the same form.
write([Count]) ->
    [put_answer(catch random()) || _ <- lists:seq(1, list_to_integer(atom_to_list(Count)))].

octets(0) -> <<>>;
octets(Size) -> element(2, file:read(standard_io, Size)).

der_of(Octets) ->
    {ok, Value} = 'ISO-10161-ILL-1':decode('ILL-APDU', Octets),
    encode(Value).

encode(Value) ->
    {ok, Der} = 'ISO-10161-ILL-1':encode('ILL-APDU', Value),
    Der.

random() ->
    {ok, Value} = asn1ct:value('ISO-10161-ILL-1-Values', 'ILL-APDU'),
    encode(dated(Value)).

%% A value, with a day for each iso-date and a time for each iso-time.
dated('iso-date') -> lists:nth(rand:uniform(3), ["20240229", "00040101", "99991231"]);
dated('iso-time') -> lists:nth(rand:uniform(3), ["000000", "235959", "240000"]);
dated(Value) when is_tuple(Value) -> list_to_tuple(dated(tuple_to_list(Value)));
dated(Value) when is_list(Value) -> lists:map(fun dated/1, Value);
dated(Value) -> Value.

put_answer(Der) when is_binary(Der) -> put_answer(1, Der);
put_answer(Why) -> put_answer(0, iolist_to_binary(io_lib:format("~0p", [Why]))).

put_answer(IsRead, Answer) -> ok = file:write(standard_io, [<<IsRead, (byte_size(Answer)):32>>, Answer]).
