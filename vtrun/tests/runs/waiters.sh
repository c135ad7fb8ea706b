# A program that is killed while it waits for a console leaves nothing behind.
. "${0%/*}/waiting.sh"
"$T/server" 2 hang quiet & server=$!
vtrun wait owner 2 100
chvt 2
for i in 1 2 3; do
    chvt 1 & waiter=$!
    await waits $i
    kill -9 $waiter
    wait $waiter
    echo $?
done 2> /dev/null
fgconsole
kill -9 $server
wait $server 2> /dev/null
fgconsole
timeout 100 chvt 2
echo $?
fgconsole
