# What the launchers say of a program's words: help and version, and which word is at fault where the program says
# `hexd: usage` alone. They set name, the program's, and share, the folder with tools/options.txt and man/. Nothing is said
# of words that are in order: these are the program's.

VERSION=1.0
# The status of wrong words, of all programs here.
WRONG_WORDS=2

# Where the words stand.
page() { [ -f "$share/man/$name.6" ] && echo "man $(realpath "$share/man/$name.6")" || echo "man $name"; }

# asks WORD WORD..: whether this word is one of the others, before a `--`.
asks() {
    local asked=$1 word
    shift
    for word; do
        [ "$word" != -- ] || return
        [ "$word" != "$asked" ] || return 0
    done
    return 1
}

# answer_words WORD..: answers --help and --version, and a program without words on a terminal, and ends then.
answer_words() {
    local help=$share/man/$name.help
    if asks --help "$@" || asks -h "$@" || [ "$*" = help ]; then
        cat "$help" && echo && echo "More: $(page)"
        exit
    elif asks --version "$@"; then
        echo "$name $VERSION"
        exit
    elif [ $# = 0 ] && [ -t 0 ] && [ -t 2 ]; then
        case $name in
            hexd)
                cat "$help" >&2
                exit "$WRONG_WORDS" ;;
            hexd-gtp) echo "$name: waits for commands now; \`list_commands\` has them, \`quit\` ends it, --help has its words" >&2 ;;
            hexmatch) echo "$name: plays ten games with its defaults; --help has its words" >&2 ;;
        esac
    fi
}

# with_config WORD..: fills words with these and, for a --config FILE among them, with the options of the file that they don't
# say: a line each, as `strength quick`, with or without hyphens and `=`. What can't be read is left among them, for find_fault.
with_config() {
    local word file='' line option said=' ' of_file=()
    words=() fault=''
    while [ $# != 0 ] && [ "$1" != -- ]; do
        case $1 in
            --config=?*) file=${1#*=} ;;
            --config)
                [ -n "$2" ] && [[ $2 != -* ]] && file=$2 && shift || words+=("$1") ;;
            *) words+=("$1") ;;
        esac
        shift
    done
    words+=("$@")
    [ -n "$file" ] || return
    for word in "${words[@]}"; do
        said+="${word%%=*} "
    done
    if ! { [ -f "$file" ] && [ -r "$file" ]; }; then
        fault="--config takes a file, and '$file' can't be read"
        return
    fi
    while read -r line || [ -n "$line" ]; do
        line=${line%%#*}
        [[ $line =~ ^[[:space:]]*(--)?([^[:space:]=]+)[[:space:]=]*(.*[^[:space:]])?[[:space:]]*$ ]] || continue
        option=--${BASH_REMATCH[2]}
        [ "$option" != --config ] || fault="the file of --config names no further one"
        [[ $said == *" $option "* ]] || of_file+=("$option=${BASH_REMATCH[3]}")
    done <"$file"
    words=("${of_file[@]}" "${words[@]}")
}

# read_options: of the program, from tools/options.txt, the range of each option by its name, empty for one without a value;
# and its modes.
read_options() {
    local programs word range rest side
    declare -gA ranges=()
    modes=()
    while IFS='|' read -r programs word range rest; do
        [[ $programs != [\#\ ]* && ", ${programs% }," == *", $name,"* ]] || continue
        word=${word# } range=${range# }
        word=${word% } range=${range% }
        case $word in
            --*-S\ *) for side in a b; do ranges[${word%S *}$side]=$range; done ;;
            --*) ranges[${word%% *}]=$range ;;
            *\ *) ;;
            *) modes+=("$word") ;;
        esac
    done <"$share/tools/options.txt"
}

# is_number TEXT LOW HIGH: whether it is a number as the programs read it, in this range. Numbers may pass 2^63.
is_number() {
    [[ $1 =~ ^[0-9]{1,20}$ ]] && ! is_less "$1" "$2" && ! is_less "$3" "$1"
}

is_less() {
    local one other
    printf -v one '%20s' "$1"
    printf -v other '%20s' "$2"
    [[ ${one// /0} < ${other// /0} ]]
}

is_text() { [[ $1 != *[$'\x80'-$'\xff']* ]] || printf '%s' "$1" | iconv -f UTF-8 -t UTF-8 >/dev/null 2>&1; }

# fault_of_value OPTION VALUE: fills fault if the option doesn't take this value.
fault_of_value() {
    local range=${ranges[$1]}
    case $range in
        *' to '*)
            is_number "$2" "$(tr -d , <<<"${range% to *}")" "$(tr -d , <<<"${range#* to }")" ||
                fault="$1 takes a number from ${range/ to / to }, and '$2' is none" ;;
        *' or '*) [[ " ${range// or / } " == *" $2 "* && $2 != *' '* && $2 ]] || fault="$1 takes $range, and '$2' is none of these" ;;
        *) [ -n "$2" ] || fault="$1 takes $range, and none is given" ;;
    esac
}

# find_fault WORD..: fills fault with what is wrong with the first word that the program can't take, or leaves it empty.
find_fault() {
    local LC_ALL=C word option value mode='' positional='' all=("$@")
    local -A seen=()
    fault=''
    [ -f "$share/tools/options.txt" ] || return
    read_options
    while [ $# != 0 ] && [ -z "$fault" ]; do
        word=$1
        shift
        option=${word%%=*}
        if ! is_text "$word"; then
            fault="'${word//[$'\x80'-$'\xff']/?}' is no text in UTF-8"
        elif [[ -z $positional && $word == -- ]]; then
            positional=yes
        elif [[ $positional || $word != -* ]]; then
            fault_of_mode "$word" "$mode"
            mode=$word
        elif ! [[ $option =~ ^--[a-z-]+$ && ${ranges[$option]+known} ]]; then
            fault="there is no option '$option'"
        elif [ -n "${seen[$option]}" ]; then
            fault="$option stands here twice"
        elif [[ -z ${ranges[$option]} ]]; then
            [ "$word" = "$option" ] || fault="$option takes no value"
        elif [[ $word == *=* ]]; then
            fault_of_value "$option" "${word#*=}"
        elif [ $# = 0 ]; then
            fault="$option takes a value, ${ranges[$option]}, and nothing follows it"
        elif [[ $1 == -* ]]; then
            fault="$option takes a value, ${ranges[$option]}, and '$1' begins with a hyphen"
        else
            ! is_text "$1" || fault_of_value "$option" "$1"
            # One that is no text is looked at once more.
            ! is_text "$1" || shift
        fi
        [ "$option" = "${option#--}" ] || seen[$option]=yes
    done
    [ -n "$fault" ] || [ "${#modes[@]}" = 0 ] || [ -n "$mode" ] || fault="one word names what to do: $(listed)"
    [ -n "$fault" ] || [ "$name" != hexmatch ] || fault_of_openings "${all[@]}"
}

listed() { local all; printf -v all '%s, ' "${modes[@]}"; echo "${all%, }"; }

# fault_of_mode WORD MODE: fills fault if this word can't be a mode, after a mode that was given or none.
fault_of_mode() {
    if [ "${#modes[@]}" = 0 ]; then
        fault="'$1' is no option, and there are options alone"
    elif [ -n "$2" ]; then
        fault="'$1' comes after '$2', and one word names what to do"
    elif [[ " ${modes[*]} " != *" $1 "* || $1 == *' '* || -z $1 ]]; then
        fault="'$1' is none of $(listed)"
    fi
}

# tell_fault: says it, as one line of text.
tell_fault() {
    local LC_ALL=C
    echo "$name: ${fault//[[:cntrl:]]/?} (--help has the words, and $(page))" >&2
}

# begin PROGRAM WORD..: becomes this program with these words. If a word is at fault the program says `hexd: usage` first, and
# then a line says which one it is.
begin() {
    local program=$1 ended
    shift
    if [ "$name" = hexmatch ]; then
        . "$share/tools/progress.bash" && take_words "$@"
        find_fault "${words[@]}"
        [ -n "$fault" ] || [ -z "$follows" ] || follow_match "$program" "${words[@]}"
        set -- "${words[@]}"
    fi
    find_fault "$@"
    if [ -z "$fault" ]; then
        shopt -s execfail
        exec "$program" "$@"
        return
    fi
    "$program" "$@"
    ended=$?
    [ "$ended" != "$WRONG_WORDS" ] || tell_fault
    exit "$ended"
}
