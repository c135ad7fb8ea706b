# agetty and login start a shell: its terminal's name, job control, and the interrupt key.
. "${0%/*}/waiting.sh"

# Whether the first row of console 2 is the prompt alone.
is_cleared() {
    [ "$(vtrun row 2 0)" = '>' ]
}

vtrun run 2 -- agetty --autologin root --noclear --noissue tty2 linux & login=$!
chvt 2
vtrun wait text 2 '~#' 100
vtrun type 'export PS1="> "; clear<Enter>'
await is_cleared
vtrun type 'echo at=$(tty) front=$(fgconsole)<Enter>'
vtrun wait text 2 'front=2' 100
vtrun type "sleep 500.$$<Enter>"
await pgrep -x -f "sleep 500.$$" > /dev/null
vtrun type '<C-c>'
vtrun type 'echo back-$?<Enter>'
vtrun wait text 2 'back-130' 100
echo $?
vtrun snap 2
vtrun type 'exit<Enter>'
wait $login
