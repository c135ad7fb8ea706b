# A server dies after its first, second, .. request, while somebody switches to it and back.
. "${0%/*}/waiting.sh"

# Whether the server has its console, or has ended.
is_up() {
    grep -q ready "$T/deaths$n" || ! kill -0 $server
}

for n in $(seq "$1"); do
    "$T/server" 2 die $n > "$T/deaths$n" & server=$!
    await is_up
    for to in 2 1 2 1; do
        timeout 100 chvt $to || echo stuck
    done
    kill $server
    wait $server
    echo $n $? $(fgconsole)
done 2> /dev/null
