# vlock holds its console until the password is typed.
. "${0%/*}/waiting.sh"
vtrun run 2 -- sh -c 'USER=root vlock -a; echo unlocked $?' &
vtrun wait owner 2 100
chvt 2
vtrun wait text 2 ENTER 100
chvt 1 & waiter=$!
await waits 1
kill $waiter
wait $waiter
echo $?
fgconsole
await listens vlock-main
vtrun type '<Enter>'
vtrun wait text 2 Password: 100
await listens vlock-main   # (what is typed before is dropped)
vtrun type 'secret<Enter>'
vtrun wait text 2 'unlocked 0' 100
timeout 100 chvt 1
echo $?
fgconsole
