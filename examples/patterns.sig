sigscript 1
process a
set X 1
send @a {1,1,[]}
send @a {2,1,[3,4,5]}
receive
on {X,^X,[X|_]}
on {X,^X,[First,Second|Rest]}
end
set All {X,First,Second,Rest}
receive
on {Same,Same,_}
end
