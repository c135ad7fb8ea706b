# What a user may do who started vtrun.
bash "$(dirname "$0")/handshakes.sh" 50 > /dev/null
chvt 2
fgconsole
openvt -w -c 3 -- true
echo $?
