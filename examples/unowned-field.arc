# A leaf refers back to its owner by an unowned field, which keeps no object alive: so the root dies with its last strong reference, and the
# leaf under it. The other leaf outlives its owner: what it refers to is dead, and that slot stays taken until this leaf is gone, too.
arc 1
slots 4
entries 1
class Node kid:strong:Leaf
class Leaf up:unowned:Node
thread 1
var root strong Node
var leaf strong Leaf
var up unowned Node
new root Node
new leaf Leaf
unown up root
set leaf.up up
set root.kid leaf
drop root
new root Node
new leaf Leaf
unown up root
set leaf.up up
drop root
get up leaf.up
load root up
drop up
done
