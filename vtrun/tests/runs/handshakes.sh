# So many switches between two servers, by a program that waits for each.
"$T/server" 1 quiet & first=$!
"$T/server" 2 quiet & second=$!
vtrun wait owner 1 100
vtrun wait owner 2 100
"$T/switches" 1 2 "$1"
kill $first $second
wait $first $second
