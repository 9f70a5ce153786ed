# A global is a reference that both threads reach. The first thread puts its node there; the second one copies it out, finds the global accessed
# while the first one copies it, too, and puts its copy there in its turn. What was there is dropped, and the end section clears the global.
arc 1
slots 1
entries 1
class Node
global shared strong Node
thread 1
var node strong Node
var seen strong Node
new node Node
set @shared node
phase
get seen @shared
thread 2
var copy strong Node
phase
get copy @shared
set @shared copy
schedule 1 1 1 1 1 1 1 1 2 2
done
