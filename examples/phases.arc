# Phases: the second thread looks for a slot once both threads have ended their first phase, in which the first one gave its own back.
# The references of each thread move to another variable before the scope ends.
arc 1
slots 1
entries 1
class Node
thread 1
var a strong Node
var b strong Node
new a Node
move b a
drop b
phase
move a b
thread 2
var c strong Node
var d strong Node
phase
new c Node
move d c
schedule 2 1 2 1
done
