# showkey reads scan bytes and keycodes, setkeycodes gives a scan code a key, screendump reads a screen.

# Runs showkey on console 2, types, and prints its last lines when the last of these is there.
read_keys() {
    printf '\033[H\033[J' > /dev/tty2
    vtrun run 2 -- sh -c "echo \$\$ > $T/showkey; exec showkey $1" & runner=$!
    vtrun wait text 2 'press any key' 100
    vtrun scan 1e 9e e0 48 e0 c8
    vtrun wait text 2 "$2" 100
    kill $(cat "$T/showkey")
    wait $runner
    vtrun snap 2
}

chvt 2
read_keys -s 0xc8 | grep -o '0x..' | tr '\n' ' '
echo
read_keys -k '103 release' | grep ^keycode
kbd_mode < /dev/tty2
setkeycodes e010 30
getkeycodes | grep 'e0 10'
printf third > /dev/tty3
screendump 3 | head -n 1
