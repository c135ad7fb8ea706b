# Makes a /dev without consoles at a folder, puts it in place of the old one, and runs a command. It wants a mount
# namespace of its own.
mount -t tmpfs none "$1" && cd "$1" || exit 1
for name in null zero full random urandom tty; do
    touch $name
    mount --bind /dev/$name $name || exit 1
done
mkdir pts shm
mount --rbind /dev/pts pts || exit 1
ln -s pts/ptmx ptmx
ln -s /proc/self/fd fd
mount --move "$1" /dev || exit 1
cd /
shift
exec "$@"
