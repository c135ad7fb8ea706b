# physlock takes a new console, and forbids switches until the password is typed.
. "${0%/*}/waiting.sh"
vtrun run 2 -- physlock -p locked &
vtrun wait front 3 100
vtrun wait text 3 Password: 100
timeout 100 chvt 1 2> /dev/null
echo $?
await listens physlock   # (what is typed before is dropped)
vtrun type 'secret<Enter>'
vtrun wait front 1 100
timeout 100 chvt 2
echo $?
fgconsole
