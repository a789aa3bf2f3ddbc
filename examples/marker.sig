sigscript 1
process client
send @client older
reserve
monitor Call @server reply_demonitor
bind Call
send @server {ask,Call}
receive using Call
on {^Call,Answer}
on {'DOWN',^Call,process,_,Why}
end
process server
receive
on {ask,From}
end
send From {From,yes}
