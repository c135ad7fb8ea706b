# A user without rights: a console that is its terminal, and others.
chvt 2 < /dev/tty
echo $?
kbd_mode -a -C /dev/tty3
echo $?
kbd_mode -a < /dev/tty
kbd_mode < /dev/tty
vtrun front
{ : <> /dev/tty3; } 2>&1 | sed 's/.*: //'
: <> /dev/tty1 && echo own
