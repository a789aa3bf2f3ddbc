sigscript 1
turns 100                       % each process executes at most 100 instructions
process client
send @server {call,@client,1}   % a tuple: an atom, the client's pid, an integer
receive
on {reply,Answer}               % waits for such a message, and binds Answer
end
set Last Answer

process server
label serve
receive
on {call,From,N} -> answer      % goes on at the label
on stop -> finish
end
label answer
send From {reply,[N]}
goto serve
label finish
