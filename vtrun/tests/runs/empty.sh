# In a /dev without consoles.
chvt 3
fgconsole
test -c /dev/tty3
echo $?
openvt -w -c 4 -- true
echo $?
"$T/clients" paths /dev/tty0 /dev/console
