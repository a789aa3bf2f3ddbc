sigscript 1
process a
trap on
send @b ready
receive
on {'EXIT',From,Why}
end
process b
receive
on ready
end
exit_to @a {boom,1}
exit done
