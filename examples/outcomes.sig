sigscript 1
turns 4
process a
send @b {m,[1]}
exit_to @b normal
receive
on never
after
end
send @c go
process b
receive
on {m,X}
end
set Y X
goto last
label last
stop
process c
receive
on go
end
send @a late
process d
send Nobody hi
