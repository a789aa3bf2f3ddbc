sigscript 1
turns 1000
process server
receive
on {call,Ref,Value}
end
send Ref {Ref,Value}
send Ref {Ref,late}
process client
reserve
monitor Call_1 @server reply_demonitor
bind Call_1
send @server {call,Call_1,7}
receive using Call_1
on {^Call_1,Answer}
on {'DOWN',^Call_1,process,_,Answer}
end
