# Programs that ignore the hang-up, on three consoles. The first argument is a file that says that they run, the second
# is a word by which they are found.
. "${0%/*}/waiting.sh"

are_up() {
    [ "$(pgrep -c -x -f "sleep 6[123].$1")" = 3 ]
}

trap '' HUP
vtrun run 2 -- sleep 61."$2" &
sleep 62."$2" &
sleep 63."$2" < /dev/tty3 &
"$T/server" 3 quiet &
vtrun wait owner 3 100
await are_up "$2"
touch "$1"
wait
