# Two strong references to one object: the object is deinited as the second is dropped, not before.
arc 1
slots 1
entries 1
class Node
thread 1
var a strong Node
var b strong Node
new a Node
copy b a
drop a
drop b
done
