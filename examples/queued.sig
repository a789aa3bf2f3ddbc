sigscript 1
turns 4
process first
set N 1
set N 2
link @idle
unlink @idle
process a
set N 1
set N 2
set N 3
send @b go
process b
receive
on go
end
link @a
unlink @a
send @c go
process c
receive
on go
end
exit_to @a {late,1}
link @a
exit boom
process idle
receive
on never
end
