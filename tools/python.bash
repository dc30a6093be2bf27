# What the programs in Python that stand beside hexd share. They set bin, the folder that they stand in, and share, the one
# with board/ and gtp/.

# What ends before the program begins has this status, as in bin/start.
NOT_STARTED=125
NEEDED='Python 3.10 or later'
. "$share/tools/streams.bash" || exit "$NOT_STARTED"

# become_python FILE WORD..: becomes this program with these words. It finds hexd by HEXD: what the environment says, else the
# one of the repository, which is built or taken from release/ now, else the one that is installed.
become_python() {
    local own=${0##*/} older='import sys; sys.exit(sys.version_info < (3, 10))' file=$1
    shift
    if ! command -v python3 >/dev/null; then
        echo "$own: it needs $NEEDED, and there is no python3" >&2
        exit "$NOT_STARTED"
    elif ! python3 -c "$older" </dev/null; then
        echo "$own: it needs $NEEDED, and python3 is $(python3 --version 2>&1 </dev/null)" >&2
        exit "$NOT_STARTED"
    fi
    if [ -z "$HEXD" ] && [ -x "$bin/start" ]; then
        HEXD=$("$bin/start" --where hexd </dev/null) || exit
    fi
    export HEXD=${HEXD:-$share/bin/hexd}
    # Python begins nothing if its input is a folder, and finds no file beside the program's if this is set.
    [ ! -d /dev/stdin ] || exec </dev/null
    unset PYTHONSAFEPATH
    exec python3 "$share/$file" "$@"
}
