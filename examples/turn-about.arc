# Two threads on one slot, step by step in turn. Both see the slot's bit clear, and the first sets it; so the second looks again, and finds the
# pool full until the first has given its slot back.
arc 1
slots 1
entries 1
class Node
thread 1
var a strong Node
new a Node
drop a
thread 2
var b strong Node
new b Node
new b Node
new b Node
new b Node
new b Node
new b Node
new b Node
new b Node
new b Node
new b Node
new b Node
schedule 1 2 1 2 1 2 1 2 1 2 1 2 1 2 1 2 1 2 1 2 1 2 1 2
done
