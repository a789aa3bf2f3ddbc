sigscript 1
process worker
receive
on ready
end
link @friend
link @watcher
exit kill
process friend
receive
on never
end
process watcher
trap on
send @worker ready
receive
on {'EXIT',@worker,Reason}
end
set Seen Reason
