# Characters and names of keys, as a program gets them; and a key after another keymap was loaded.
. "${0%/*}/waiting.sh"
vtrun run 2 -- sh -c 'stty raw -echo; > "$T/typed"; exec cat -v > "$T/typed"' &
await test -e "$T/typed"
vtrun type '<A-F2>'
vtrun type 'aZ09 !~{|\<lt>"'
vtrun type '<Enter><Tab><Esc><Up><F1><F12><S-F1><PageDown><Delete><C-a><M-x><A-y><C-[>#'
await ends_with "$T/typed" '#'
cat "$T/typed"
echo
printf 'keycode 30 = q\n' | loadkeys -
vtrun type q
await ends_with "$T/typed" q
tail -c 1 "$T/typed"
