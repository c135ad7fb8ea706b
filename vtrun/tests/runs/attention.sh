# The attention key ends the programs of the console in front, also one that waits; the others go on.
. "${0%/*}/waiting.sh"
printf 'keycode 59 = SAK\n' | loadkeys -
"$T/server" 2 hang quiet & server=$!
vtrun wait owner 2 100
vtrun run 2 -- sh -c '> "$T/attention"; exec cat' > /dev/null & runner=$!
await test -e "$T/attention"
chvt 2
sh -c 'exec chvt 1 < /dev/tty2' & waiter=$!
await waits 1
vtrun scan 3b bb
wait $server
echo $?
wait $waiter
echo $?
wait $runner
vtrun processes | wc -l
fgconsole
printf hello > /dev/tty2
vtrun row 2 0
timeout 100 chvt 2
printf again > /dev/tty1
vtrun row 1 0
