# The programs of kbd and util-linux, each on the console that is its terminal, with its output and its status.
#
# usage: programs.sh   (its controlling terminal is a console; /tmp is written)
#
# real-programs.txt has what it printed on a console of Linux; dev/checks/check_vtrun.py compares.
ask() {
    echo "== $*"
    timeout 100 "$@" < /dev/tty 2>&1 | head -n 8
    echo "status ${PIPESTATUS[0]}"
}

ask fgconsole
ask chvt 3
ask fgconsole
ask fgconsole --next-available
ask chvt 0
ask chvt 64
ask chvt nine
ask openvt -s -w -c 5 -- sh -c 'tty; fgconsole > /tmp/vtrun-front; sleep 0.1'
ask cat /tmp/vtrun-front
ask fgconsole
ask deallocvt 5
ask deallocvt 1
ask deallocvt 9
ask deallocvt
ask openvt -w -c 7 -- true
ask kbd_mode
ask kbd_mode -f -a
ask kbd_mode
ask kbd_mode -f -s
ask kbd_mode
ask kbd_mode -f -k
ask kbd_mode
ask kbd_mode -u
ask kbd_mode -f -u
ask kbd_mode
ask setleds -F
ask setleds +num
ask setleds -F
ask setleds -caps +scroll
ask setleds -F
ask setleds -num -scroll
ask setleds -D +num
ask setleds
ask setleds -D -num
ask setleds -L
ask setmetamode
ask setmetamode meta
ask setmetamode
ask setmetamode esc
ask setmetamode
ask getkeycodes
ask kbdinfo getmode
ask kbdinfo gettype
ask kbdinfo gkbmode
ask kbdinfo gkbmeta
ask kbdinfo gkbled
ask showconsolefont -i
ask setfont -v
ask setfont -m none
ask setfont -o /tmp/vtrun-font
ask setfont -ou /tmp/vtrun-map
ask kbdrate
ask setlogcons 1
ask setvtrgb vga
ask stty size
ask stty rows 20 cols 70
ask stty size
ask stty rows 25 cols 80
ask setterm --blank 0
ask setterm --powersave off
ask tty
ask test -c /dev/tty1
ask chvt 1
ask fgconsole
rm -f /tmp/vtrun-front /tmp/vtrun-font /tmp/vtrun-map
