# A server that refuses keeps its console; one that hangs loses it when it is killed.
. "${0%/*}/waiting.sh"
"$T/server" 2 refuse > "$T/refuses" & server=$!
vtrun wait owner 2 100
chvt 2
chvt 1 & waiter=$!
await grep -q refused "$T/refuses"
await waits 1
kill $waiter
wait $waiter
echo $?
fgconsole
kill $server
wait $server
chvt 1
fgconsole
"$T/server" 3 hang > "$T/hangs" & server=$!
vtrun wait owner 3 100
chvt 3
chvt 1 & waiter=$!
await grep -q asked "$T/hangs"
await waits 2
fgconsole
kill -9 $server
wait $server
wait $waiter
echo $?
fgconsole
cat "$T/refuses" "$T/hangs"
