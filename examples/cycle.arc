# Two objects that refer to each other by strong fields keep each other: no deinit comes when the variables are gone, and the report tells two
# leaks. A third object refers to itself until a set puts nil into its field, so it dies at the end of the scope.
arc 1
slots 3
entries 1
class Node next:strong:Node
thread 1
var a strong Node
var b strong Node
var again strong Node
new a Node
new b Node
copy again a
set a.next b
get b a.next
set b.next again
drop a
drop b
new a Node
copy again a
set a.next again
set a.next b
done
