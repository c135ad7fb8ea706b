# greetd switches to its console, and starts a session there.
. "${0%/*}/waiting.sh"
greetd -c "$1" > /dev/null 2>&1 & daemon=$!
vtrun wait text 2 'login:' 100
fgconsole
await listens agreety
vtrun type 'root<Enter>'
vtrun wait text 2 assword: 100
await listens agreety   # (what is typed before is dropped)
vtrun type 'secret<Enter>'
vtrun wait text 2 '#' 100
vtrun type 'echo at=$(tty)<Enter>'
vtrun wait text 2 at=/dev 100
vtrun snap 2
kill $daemon
