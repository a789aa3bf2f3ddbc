sigscript 1
process a
send @b x
send @b y
process b
receive
on y
end
receive
on z
end
