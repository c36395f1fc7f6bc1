%% Codes S-CDRs and M-CDRs with what Erlang's ASN.1 compiler made of CDR.asn1, a
%% line of the input file at a time:
%%
%%   encode: values -> the record's octets in hex, or "refused WHY"
%%   decode: octets in hex -> "refused WHY", or
%%           "taken REST AGAIN VALUES": the octets left over ("-" for none),
%%           the octets of the same values encoded again ("!" for none), and
%%           the values
%%
%% Values are JSON: an octet string is "x:HEX", a character string "s:HEX", a
%% named number its name, a choice ["name", value].
-module(coder).
-export([main/1]).

main([How, In, Out]) ->
    {ok, Text} = file:read_file(In),
    Lines = lists:droplast(binary:split(Text, <<"\n">>, [global])),
    {ok, File} = file:open(Out, [write, raw, {delayed_write, 1 bsl 20, 1000}]),
    lists:foreach(fun(Line) -> ok = file:write(File, [line(How, Line), $\n]) end, Lines),
    ok = file:close(File),
    halt(0).

line("encode", Line) ->
    {Values, <<>>} = read(Line),
    case encode(Values) of
        {ok, Octets} -> hex(Octets);
        {error, Why} -> ["refused ", Why]
    end;
line("decode", Line) ->
    case decode(binary:decode_hex(Line)) of
        {ok, Values, Rest} ->
            Again = case encode(Values) of {ok, Octets} -> hex(Octets); {error, _} -> "!" end,
            ["taken ", case Rest of <<>> -> "-"; _ -> hex(Rest) end, " ", Again, " ", show(Values)];
        {error, Why} -> ["refused ", Why]
    end.

encode(Values) ->
    try 'CDR':encode('CallEventRecord', Values) of
        {ok, Octets} -> {ok, Octets};
        {error, Why} -> {error, why(Why)}
    catch _:Why -> {error, why(Why)}
    end.

decode(Octets) ->
    try 'CDR':decode('CallEventRecord', Octets) of
        {ok, Values, Rest} -> {ok, Values, Rest};
        {error, Why} -> {error, why(Why)}
    catch _:Why -> {error, why(Why)}
    end.

why({asn1, {Why, _Where}}) -> why(Why);
why(Why) -> lists:sublist(lists:flatten(io_lib:format("~w", [Why])), 120).

hex(Octets) -> binary:encode_hex(Octets).

%% Values to JSON, fields in the order of their names.
show(true) -> "true";
show(false) -> "false";
show(Name) when is_atom(Name) -> [$", atom_to_binary(Name), $"];
show(Number) when is_integer(Number) -> integer_to_binary(Number);
show(Octets) when is_binary(Octets) -> ["\"x:", hex(Octets), $"];
show({Name, Value}) -> ["[\"", atom_to_binary(Name), "\",", show(Value), $]];
show([First | _] = Characters) when is_integer(First) ->
    ["\"s:", hex(list_to_binary(Characters)), $"];
show(List) when is_list(List) -> [$[, lists:join($,, [show(Value) || Value <- List]), $]];
show(Fields) when is_map(Fields) ->
    [${, lists:join($,, [[$", atom_to_binary(Name), "\":", show(Value)]
                         || {Name, Value} <- lists:sort(maps:to_list(Fields))]), $}];
show(Other) -> [$", "other:", hex(iolist_to_binary(io_lib:format("~0p", [Other]))), $"].

%% JSON to values; the Python side writes it without blanks.
read(<<"true", More/binary>>) -> {true, More};
read(<<"false", More/binary>>) -> {false, More};
read(<<"\"x:", More/binary>>) ->
    {Hex, Rest} = quoted(More),
    {binary:decode_hex(Hex), Rest};
read(<<"\"s:", More/binary>>) ->
    {Hex, Rest} = quoted(More),
    {binary_to_list(binary:decode_hex(Hex)), Rest};
read(<<"\"", More/binary>>) ->
    {Name, Rest} = quoted(More),
    {binary_to_atom(Name), Rest};
read(<<"[]", More/binary>>) -> {[], More};
read(<<"[", More/binary>>) ->
    {First, Rest} = read(More),
    case {First, list(Rest, [First])} of
        {Name, {[Name, Value], After}} when is_atom(Name) -> {{Name, Value}, After};
        {_, Answer} -> Answer
    end;
read(<<"{}", More/binary>>) -> {#{}, More};
read(<<"{", More/binary>>) -> fields(More, #{});
read(Number) -> number(Number, 0).

number(Text, Place) ->
    case Text of
        <<_:Place/binary, C, _/binary>> when C =:= $-; C >= $0, C =< $9 -> number(Text, Place + 1);
        <<Digits:Place/binary, Rest/binary>> -> {binary_to_integer(Digits), Rest}
    end.

quoted(Text) ->
    [Inside, Rest] = binary:split(Text, <<"\"">>),
    {Inside, Rest}.

list(<<"]", More/binary>>, Values) -> {lists:reverse(Values), More};
list(<<",", More/binary>>, Values) ->
    {Value, Rest} = read(More),
    list(Rest, [Value | Values]).

fields(<<"}", More/binary>>, Fields) -> {Fields, More};
fields(<<",", More/binary>>, Fields) -> fields(More, Fields);
fields(<<"\"", More/binary>>, Fields) ->
    {Name, <<":", Rest/binary>>} = quoted(More),
    {Value, After} = read(Rest),
    fields(After, Fields#{binary_to_atom(Name) => Value}).
