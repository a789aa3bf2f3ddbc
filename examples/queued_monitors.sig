sigscript 1
turns 4
process a
set N 1
alias A
monitor M @b
send @b A
process b
receive
on R
end
send R late
send @c go
process c
receive
on go
end
monitor N @a
demonitor N
