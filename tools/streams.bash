# What a launcher sees to before all else, for a program that it becomes.

# If standard input, output or error is closed, the first file that a program opens would get its number, and get what it writes
# there or lend it what it reads. So each is held by a file of which that isn't possible: to use it is a fault still.
[ -e /proc/self/fd/0 ] || exec 0>/dev/null
[ -e /proc/self/fd/1 ] || exec 1</dev/null
[ -e /proc/self/fd/2 ] || exec 2</dev/null
# A file that may grow no more (ulimit -f) is a fault of that file, with its own status, and no signal that ends the program.
trap '' XFSZ
