# Version 2: the objects of an immortal class are never deinited, however many references come and go. Their slots stay taken, and the end
# section names them.
arc 2
slots 2
entries 1
immortal Root
class Node
thread 1
var root strong Root
var other strong Root
var node strong Node
new root Root
copy other root
drop root
new node Node
drop other
done
