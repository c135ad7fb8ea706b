# Output without an end on two consoles, a program that reads nothing, and more keys than its queue has room for.
text=$(printf 'x%.0s' {1..1000})
yes 0123456789 > /dev/tty3 & first=$!
yes > /dev/tty4 & second=$!
vtrun run 5 -- "$T/clients" deaf 5 > /dev/null &
vtrun wait text 4 y 100
vtrun wait text 5 ready 100
for i in 1 2 3 4 5; do vtrun type "$text"; done
chvt 5
for i in 1 2 3 4 5; do vtrun type "$text"; done
vtrun front
vtrun wait text 3 0123456789 100
echo $?
kill $first $second
fgconsole
