sigscript 1
process a
set X {ok,[1,-2],'two words',@a,[]}
set Y [X,'ok',Z]
set X -0
send X hi
