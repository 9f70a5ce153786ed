# A tree: an object that only a field refers to dies under its owner, as the owner's deinit takes the reference out. So the drop of the root
# brings about all deinits, each behind that of its owner.
arc 1
slots 4
entries 1
class Node left:strong:Node right:strong:Node
thread 1
var root strong Node
var left strong Node
var right strong Node
var leaf strong Node
new root Node
new left Node
new right Node
new leaf Node
set right.left leaf
set root.left left
set root.right right
drop root
done
