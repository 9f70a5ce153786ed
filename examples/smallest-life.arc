# The smallest life: one object is made, and its only reference is dropped, so it is deinited and its slot given back.
arc 1
slots 1
entries 1
class Node
thread 1
var a strong Node
new a Node
drop a
done
