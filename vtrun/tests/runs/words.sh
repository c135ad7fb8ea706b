# The status of each word.
status() {
    "$@" > /dev/null 2>&1
    echo $?
}
status vtrun front
status vtrun wait front 2 0.1
status vtrun wait front 1 0
status vtrun wait owner 1 0.1
status vtrun wait text 1 nothing 0.1
status vtrun type '<A-F2>'
status vtrun wait front 2 100
status vtrun type '<Nokey>'
status vtrun snap 9
status vtrun snap 2 --svg
status vtrun snap --redraw
status vtrun run 1 -- sh -c 'exit 3'
status vtrun processes
status vtrun journal
status vtrun wait
status vtrun wait front 1 x
status env VTRUN_SOCKET=/nowhere vtrun front
status env -u VTRUN_SOCKET vtrun front
status vtrun attach
status vtrun row 1 0
# A screen that no text draws: a byte from 80 to 9F that was drawn in byte mode.
printf '\033%%@\205abc' > /dev/tty3
status vtrun wait text 3 abc 10
status vtrun snap 3 --svg
status vtrun snap 3 --redraw
# Words that aren't of the form, which do nothing: those of the last lines would end vtrun.
line_end='1
end'
status vtrun snap "$line_end"
status vtrun wait front "$line_end" 1
status vtrun wait owner "$line_end" 1
status vtrun wait text "$line_end" x 1
status vtrun run "$line_end" -- true
status vtrun row 1 "$line_end"
status vtrun scan 1e "$line_end"
status vtrun snap '1 2'
status vtrun snap 1 2
status vtrun snap --svg --redraw
status vtrun snap --foo
status vtrun run 99 -- true
status vtrun wait front 64 1
status vtrun wait front 1 ''
status vtrun row 1 0 2
status vtrun scan
status vtrun scan 1e9e
status vtrun front 1
status vtrun consoles 1
status vtrun processes 1
status vtrun journal 1
status vtrun end --help
# Answers that can't be written.
unwritten() {
    "$@" 2>&1 > /dev/full | head -1
    "$@" > /dev/full 2> /dev/null
    echo $?
    "$@" >&- 2> /dev/null
    echo $?
}
unwritten vtrun front
unwritten vtrun snap 1
unwritten vtrun --help
