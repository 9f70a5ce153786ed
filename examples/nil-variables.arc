# A copy or a drop of a variable that holds nothing answers "nil"; the copy makes its destination nil, too.
arc 1
slots 1
entries 1
class Node
thread 1
var a strong Node
var b strong Node
drop a
new b Node
copy b a
drop b
done
