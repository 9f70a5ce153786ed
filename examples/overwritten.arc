# A reference that is overwritten is dropped last: the new object stands before the old one is deinited.
arc 1
slots 2
entries 1
class Node
thread 1
var a strong Node
new a Node
new a Node
done
