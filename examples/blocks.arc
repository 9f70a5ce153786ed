# Version 2: blocks are run where their variable is nil (ifnil) or isn't nil (ifsome) as the thread comes to them. There is one slot, so
# the second thread finds none free in its first phase and skips its drop; in its second phase it makes its object. Operations that are
# skipped keep their numbers.
arc 2
slots 1
entries 1
class Node
thread 1
var a strong Node
ifnil a
new a Node
ifsome a
drop a
end
end
phase
thread 2
var b strong Node
new b Node
ifsome b
drop b
end
phase
ifnil b
new b Node
end
schedule 1 1 2
done
