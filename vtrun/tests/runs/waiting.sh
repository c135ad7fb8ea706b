# What the other scripts wait by, each for 100 seconds at most: it takes so long only if something is wrong.

# Waits until a command succeeds.
await() {
    for _ in $(seq 1000); do
        "$@" && return
        sleep 0.1
    done
    echo "await $*: in vain" >&2
    return 1
}

# Whether so many waits for a console have begun and were held: as the journal has it.
waits() {
    [ "$(grep -c ' = wait$' "$(vtrun journal)")" -ge "$1" ]
}

# Whether a program of this name sleeps in a read or in pselect(2): so it takes what is typed. Only root may ask.
listens() {
    local pid call _
    for pid in $(pgrep -x "$1"); do
        [ "/proc/$pid/ns/mnt" -ef /proc/self/ns/mnt ] || continue   # (that of another vtrun)
        read -r call _ < "/proc/$pid/syscall"
        case $call in 0 | 270) return 0 ;; esac
    done
    return 1
}

# Whether a file ends with a character.
ends_with() {
    [ "$(tail -c 1 "$1" 2> /dev/null)" = "$2" ]
}
