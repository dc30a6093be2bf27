# What bin/start, tools/build and tools/release share: what a program is made of, whether the built one is of the sources as
# they are, how it begins, and what release/ has of it. They set here, the repository's folder, and task, what they do.

# What ends before the program begins has this status, which no program here has.
NOT_STARTED=125
share=$here
. "$here/tools/words.bash" || return
# Each released program packed as NAME.gz, and what is recorded of it: a line of its name, the SHA-256 of the list of its
# sources' checksums, its own SHA-256, the commit, and the kit that proved it.
release=$here/release
record=$release/RECORD

# A search takes its memory at once, many megabytes of many playouts, and much of the time that this takes goes into pages.
# So the C library asks the system for pages of two megabytes. A value that the environment has stands, an empty one too.
LARGE_PAGES=glibc.malloc.hugetlb=1

say() { echo "$name: $*" >&2; }

stop() {
    say "$@"
    exit "$NOT_STARTED"
}

# Chooses the program of this name, that of crates/NAME. Of its crates, lowest first, it fills needed, and below with the
# names after each crate's colon in crates.txt.
choose() {
    local lines at crate wanted=" $1 "
    name=$1
    out=$here/crates/$name/out
    needed=()
    declare -gA below=()
    mapfile -t lines < <(grep '^[a-z]' "$here/crates.txt")
    for ((at = ${#lines[@]} - 1; at >= 0; at--)); do
        crate=${lines[at]%%:*}
        below[$crate]="${lines[at]#*:} "
        if [[ $wanted == *" $crate "* ]]; then
            wanted+=${below[$crate]}
            needed=("$crate" "${needed[@]}")
        fi
    done
}

# What this command, cksum or sha256sum, says of each file that the program is made of, by its path in the repository. Times
# of files say nothing of a copy.
source_sums() (
    cd "$here" || exit 1
    paths=(crates.txt)
    for crate in "${needed[@]}"; do
        paths+=("crates/$crate"/{src,specs,proofs})
    done
    find "${paths[@]}" -type f -print0 2>/dev/null | LC_ALL=C sort -z | xargs -0 "$1"
)

# A program lies in a folder with NAME.sums beside it: these checksums of its sources, and its own.
keep() {
    local partial=$1/$name.sums.$$
    { echo "$2" && cksum <"$1/$name"; } >"$partial" && mv "$partial" "$1/$name.sums"
}

# Whether the program in this folder is the one that was kept there, made of sources with these checksums.
is_kept() { [ -x "$1/$name" ] && [ -f "$1/$name.sums" ] && cmp -s "$1/$name.sums" <(echo "$2" && cksum <"$1/$name"); }

# Becomes the program in this folder, with these words (words.bash); or says where it lies.
become() {
    local folder=$1
    shift
    if [ "$task" = where ]; then
        echo "$folder/$name"
        exit
    fi
    export GLIBC_TUNABLES=${GLIBC_TUNABLES-$LARGE_PAGES}
    begin "$folder/$name" "$@"
    exit "$NOT_STARTED"
}

sha() { sha256sum | cut -d ' ' -f 1; }

# The checksum by which a release names its sources.
sources_sum() { source_sums sha256sum | sha; }

# What is recorded of the program, if anything.
read_record() {
    local of
    released_sources='' released_sum='' released_commit='' released_kit=''
    [ -f "$record" ] || return
    while read -r of released_sources released_sum released_commit released_kit; do
        [ "$of" = "$name" ] && return
    done <"$record"
    return 1
}

# The released program.
unpacked() { gzip -dc "$release/$name.gz" 2>/dev/null; }

is_undamaged() { [ "$(unpacked | sha)" = "$released_sum" ]; }
