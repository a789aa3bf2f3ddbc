sigscript 2
process a
send @a 5
send @a x
send @a 12
receive
on N when N > 9 or is_atom(N)
end
receive
on N when N >= 5 and N =< 5
end
