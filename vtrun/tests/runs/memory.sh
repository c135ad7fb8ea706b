# The memory of vtrun after some requests, and after many, with programs and output; and its time for many requests.
vtrun=$(awk '/^PPid/ { print $2 }' /proc/$PPID/status)
size() { awk '/^VmRSS/ { print $2 }' /proc/$vtrun/status; }
ticks() { sed 's/.*) //' /proc/$vtrun/stat | awk '{ print $12 + $13 }'; }
"$T/switches" 5000
size
before=$(ticks)
"$T/switches" 100000
echo ticks $(($(ticks) - before))
for i in $(seq 40); do fgconsole; done > /dev/null
seq 1 100000 > /dev/tty2
size
