sigscript 1
process parent
trap on
link @friend
unlink @friend
send @friend go
receive
on bye
end
link @child
send @child go
receive
on {'EXIT',@child,Why}
end
link @child                     % it has ended
receive
on {'EXIT',@child,noproc}
end
process friend
receive
on go
end
send @parent bye
exit boom
process child
receive
on go
end
exit {crash,1}
