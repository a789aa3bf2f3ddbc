sigscript 1
process watcher
monitor First @worker
monitor Second @brief
send @brief go
receive
on {'DOWN',^Second,process,_,Why}
end
monitor Third @brief            % it has ended
receive
on {'DOWN',^Third,process,_,noproc}
end
demonitor First flush
process worker
receive
on never
end
process brief
receive
on go
end
exit done
