# A match that can be followed: hexmatch writes its text when all games were played, so --progress has it play them some at a
# time. Two games of a match are those of a match of two from another seed (docs/use/MATCHES.md, "Seeds"), so the text is the
# same; it is this script's, which is tested and not proved. tools/words.bash has begin, which calls this.

# How far the seeds of one game are from those of the next.
GAME_STEP=$((2 << 40))

# value_of OPTION DEFAULT WORD..: what these words, which are in order, say of an option.
value_of() {
    local option=$1 value=$2
    shift 2
    while [ $# != 0 ]; do
        case $1 in
            "$option") value=$2 ;;
            "$option"=*) value=${1#*=} ;;
        esac
        shift
    done
    echo "$value"
}

# without OPTION.. -- WORD..: fills left with these words but for those options and their values.
without() {
    local options=' '
    while [ "$1" != -- ]; do
        options+="$1 "
        shift
    done
    shift
    left=()
    while [ $# != 0 ]; do
        if [[ $options != *" ${1%%=*} "* ]]; then
            # A `--` ends the options, and nothing stands behind it.
            [ "$1" = -- ] || left+=("$1")
        elif [[ $1 != *=* ]]; then
            shift
        fi
        shift
    done
}

# turned LIST BY: this list of openings, begun so many later.
turned() {
    local IFS=, names at
    read -ra names <<<"$1"
    at=$(($2 % ${#names[@]}))
    names=("${names[@]:at}" "${names[@]:0:at}")
    echo "${names[*]}"
}

# fault_of_openings WORD..: fills fault if these words, each of which is in order, list openings that the board doesn't have.
fault_of_openings() {
    local list size vertex vertices range=${ranges[--opening]}
    list=$(value_of --opening '' "$@")
    [ -n "$list" ] || return
    size=$((10#$(value_of --size 5 "$@")))
    mapfile -td , vertices < <(printf '%s,' "$list")
    for vertex in "${vertices[@]}"; do
        # `a` is column 10 in base 36.
        [[ $vertex =~ ^([a-kA-K])([1-9]|1[01])$ ]] && [ $((36#${BASH_REMATCH[1]} - 9)) -le "$size" ] &&
            [ "${BASH_REMATCH[2]}" -le "$size" ] || fault="--opening takes $range, and '$vertex' is none of size $size"
    done
    [ "${#vertices[@]}" -le "${range//[!0-9]/}" ] || fault="--opening takes $range, and these are ${#vertices[@]}"
}

# take_words WORD..: fills words with those of the program; of the script's own follows, whether the match is played some games
# at a time, says, whether each is said, resumed, the file with what was played of it, and json, whether objects are written.
take_words() {
    words=() follows='' says='' resumed='' json=''
    while [ $# != 0 ]; do
        case $1 in
            --) break ;;
            --json) follows=yes json=yes ;;
            --progress) follows=yes says=yes ;;
            --resume=*) follows=yes says=yes resumed=${1#*=} ;;
            --resume)
                follows=yes says=yes
                [ $# != 1 ] || wrong_text "--resume takes a file, and nothing follows it"
                resumed=$2
                shift ;;
            *) words+=("$1") ;;
        esac
        shift
    done
    words+=("$@")
}

# wrong_text FAULT: ends it as a wrong word does, but for hexmatch's own line.
wrong_text() {
    fault=$1
    tell_fault
    exit "$WRONG_WORDS"
}

is_game() { [[ $1 =~ ^([0-9]+)(\ (a|b|none)\ (black|white|none)\ ([0-9]+))$ ]]; }

# read_played FILE RECORDS: of the text of a match, or of its beginning, how many games it has, in played, and in wins how many
# each side has won; ends it all if the text is whole.
read_played() {
    local line number=0 wants_record='' lines
    mapfile lines <"$1" || exit "$WRONG_WORDS"
    for line in "${lines[@]}"; do
        number=$((number + 1))
        if [ "$wants_record" ] && [[ $line == '(;'*')'$'\n' ]]; then
            wants_record=''
        elif [[ -z $wants_record && $line =~ ^a\ [0-9]+\ b\ [0-9]+$'\n'$ && $number = "${#lines[@]}" ]]; then
            exit 0
        elif [[ -z $wants_record && $line == *$'\n' ]] && is_game "${line%$'\n'}" && [ "${BASH_REMATCH[1]}" = "$played" ]; then
            wins[${BASH_REMATCH[3]}]=$((${wins[${BASH_REMATCH[3]}]:-0} + 1))
            played=$((played + 1))
            [ "$2" = off ] || wants_record=yes
        else
            wrong_text "--resume takes the text of a match, and line $number of '$1' is none"
        fi
    done
    [ -z "$wants_record" ] || wrong_text "--resume takes the text of a match, and line $((number + 1)) of '$1' is none"
}

# tell_game NUMBER SIDE COLOUR MOVES: counts a game, and says it, with the games that the sides have won so far.
tell_game() {
    wins[$2]=$((${wins[$2]:-0} + 1))
    [ -z "$says" ] || echo "$name: game $(($1 + 1)) of $games: $2 won as $3 in $4 moves; a ${wins[a]:-0}, b ${wins[b]:-0}" >&2
}

# give TEXT RECORDS: writes lines of a match, if there are any: as they are, or each as an object of JSON, with a game's record in
# the object of that game.
give() {
    local text=$1 join=''
    if [ -n "$text" ] && [ -n "$json" ]; then
        [ "$2" = off ] || join='/^[0-9]/N;'
        text=$(sed -E -e "$join"'s/^([0-9]+) (\w+) (\w+) ([0-9]+)\n?(.*)$/{"game":\1,"winner":"\2","colour":"\3","moves":\4,"record":"\5"}/' \
            -e 's/^a ([0-9]+) b ([0-9]+)$/{"a":\1,"b":\2}/; s/"none"|""/null/g' <<<"${text%$'\n'}")$'\n'
    fi
    printf '%s' "$text" 2>/dev/null || exit 4
}

# played_games FROM TEXT: in part the text of the games that are new among those of a match, whose first is this one, and says
# each on standard error.
played_games() {
    local line number is_new=''
    part=''
    while read -r line; do
        # Its last line has the wins of these games alone, and a record stands as it is.
        [[ ! $line =~ ^a\ [0-9]+\ b\ [0-9]+$ ]] || continue
        if is_game "$line"; then
            number=$(($1 + BASH_REMATCH[1]))
            line=$number${BASH_REMATCH[2]} is_new=''
            [ "$number" -lt "$played" ] || { is_new=yes && tell_game "$number" "${BASH_REMATCH[@]:3:3}"; }
        fi
        [ -z "$is_new" ] || part+=$line$'\n'
    done <<<"$2"
}

# follow_match PROGRAM WORD..: plays the match of these words, or what is left of it, and writes and says games once they are
# known. So what was written stands if it is ended.
follow_match() {
    local program=$1 games seed threads records opening at count text left part ended output running played=0
    local -A wins=()
    shift
    games=$((10#$(value_of --games 10 "$@")))
    threads=$((10#$(value_of --threads 1 "$@")))
    seed=$((10#$(value_of --seed 0 "$@")))
    records=$(value_of --records off "$@")
    opening=$(value_of --opening '' "$@")
    if [ -n "$resumed" ]; then
        [ -f "$resumed" ] && [ -r "$resumed" ] || wrong_text "--resume takes a file, and '$resumed' can't be read"
        read_played "$resumed" "$records"
    fi
    without --games --seed --opening -- "$@"
    # Sides change colours from game to game, so each part begins with one of even number, and with the opening of its pair.
    for ((at = played - played % 2; at < games; at += count)); do
        count=$((2 * threads < games - at ? 2 * threads : games - at))
        exec {output}< <(exec "$program" "${left[@]}" --games "$count" --seed "$(printf '%u' $((seed + at * GAME_STEP)))" \
            ${opening:+--opening "$(turned "$opening" $((at / 2)))"})
        running=$!
        # A signal ends the match too: bash hears none while it waits for a command, but in `read`.
        trap 'kill "$running"; exit 143' TERM
        IFS= read -rd '' text <&"$output"
        exec {output}<&-
        wait "$running"
        ended=$?
        trap - TERM
        text=${text%$'\n'}
        [ "$ended" = 0 ] || exit "$ended"
        played_games "$at" "$text"
        give "$part" "$records"
    done
    give "a ${wins[a]:-0} b ${wins[b]:-0}"$'\n' "$records"
    exit 0
}
