sigscript 1
process a
send @a second
send @a first
receive
on first
on second
end
receive
on third
after -> none
end
set X unreached
label none
receive
on _ -> last
after
end
set X unreached
label last
