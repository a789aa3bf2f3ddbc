sigscript 1
turns 3
process a
label again
send @b tick
goto again
process b
receive
on tick
end
receive
on tick
end
send @a late
