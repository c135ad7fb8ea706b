# seatd and a client of libseat. seatd's socket is /run/seatd.sock: this one has a /run of its own.
export SEATD_VTBOUND=1
unshare -m sh -c 'mount -t tmpfs none /run && exec seatd-launch -- $T/seat_client 200 2' & seat=$!
vtrun wait owner 1 100
chvt 2
chvt 1
wait $seat
echo $?
