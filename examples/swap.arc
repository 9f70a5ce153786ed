# Two variables exchange their references by a field: one reference is put into the field of a box, the other one moves to the first variable,
# and what the field has is copied out of it. What the field still has goes with the box.
arc 1
slots 3
entries 1
class Box item:strong:Item
class Item
thread 1
var box strong Box
var a strong Item
var b strong Item
new box Box
new a Item
new b Item
set box.item a
move a b
get b box.item
drop box
drop a
drop b
done
