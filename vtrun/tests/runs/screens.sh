# vcs(4): the screen of console 3.
printf 'h\303\251llo\033[31mX' > /dev/tty3
head -c 6 /dev/vcs3 | od -An -tx1
head -c 4 /dev/vcsa3 | od -An -tu1
head -c 8 /dev/vcsu3 | od -An -tx4
cat /dev/vcs99 2>&1 | sed 's/.*: //'
