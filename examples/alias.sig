sigscript 1
process client
monitor Call @server reply_demonitor
send @server {ask,Call}
receive
on {reply,Answer}
on {'DOWN',^Call,process,_,Why}
end
receive
on Late
after
end
process server
receive
on {ask,From}
end
send From {reply,yes}
send From {reply,no}
