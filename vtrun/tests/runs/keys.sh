# What dumpkeys prints is loaded by loadkeys and changes nothing; then two keys are loaded, and typed.
. "${0%/*}/waiting.sh"
dumpkeys > "$T/keys1"
loadkeys "$T/keys1"
echo $?
dumpkeys > "$T/keys2"
cmp "$T/keys1" "$T/keys2"
echo $?
printf 'keycode 30 = b\nkeycode 59 = F100\nstring F100 = "hundred"\n' | loadkeys -
echo $?
dumpkeys | grep -E '^keycode +30 |^string F100 '
vtrun run 2 -- sh -c '> "$T/keys3"; exec cat' &
await test -e "$T/keys3"
chvt 2
vtrun type '<C-l>b'
vtrun wait text 2 b 100
echo $?
vtrun scan 3b bb
vtrun wait text 2 hundred 100
echo $?
