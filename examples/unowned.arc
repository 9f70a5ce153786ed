# An unowned reference doesn't keep its object: the first load takes a strong reference, and the one after the deinit finds it dead. The slot
# stays taken until the unowned reference is gone, too; then it is given again.
arc 1
slots 1
entries 1
class Node
thread 1
var node strong Node
var taken strong Node
var seen unowned Node
new node Node
unown seen node
load taken seen
drop node
drop taken
load taken seen
new node Node
drop seen
new node Node
done
