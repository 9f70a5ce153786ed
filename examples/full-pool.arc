# The pool has one slot: a second object finds none ("full") until the first was deinited and its slot given back.
arc 1
slots 1
entries 1
class Node
thread 1
var a strong Node
var b strong Node
new a Node
new b Node
drop a
new b Node
done
