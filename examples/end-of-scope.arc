# A thread that ends drops the variables that still hold a reference, in the order of declaration ("end deinit ..").
arc 1
slots 2
entries 1
class Door
class Key
thread 1
var door strong Door
var key strong Key
new key Key
new door Door
done
