# Completion of hexmatch's words for bash: each option once. tools/options writes it.
_hexmatch() {
    local modes=''
    # All options, and those that take a value.
    local options=' --size --games --threads --seed --records --opening --playouts-a --playouts-b --words-a --words-b --expand-a --expand-b --weight-a --weight-b --solve-a --solve-b --look-a --look-b '
    local valued=' --size --games --threads --seed --records --opening --playouts-a --playouts-b --words-a --words-b --expand-a --expand-b --weight-a --weight-b --solve-a --solve-b --look-a --look-b '
    local at word name=${COMP_WORDS[COMP_CWORD-1]}
    # bash cuts `--name=value` in three at the sign.
    [ "$name" = = ] && name=${COMP_WORDS[COMP_CWORD-2]}
    case $name in
        --records)
            mapfile -t COMPREPLY < <(compgen -W 'on off' -- "$2")
            return ;;
        --?*)
            [[ $valued != *" $name "* ]] || return ;;
    esac
    for ((at = 1; at < COMP_CWORD; at++)); do
        word=${COMP_WORDS[at]}
        case $word in
            # Behind it no word is an option.
            --) options= ;;
            --*)
                options=${options/" $word "/ }
                if [[ $valued == *" $word "* ]]; then
                    # The option's value, which is no mode.
                    [ "${COMP_WORDS[at+1]}" = = ] && at=$((at + 1))
                    at=$((at + 1))
                fi ;;
            *) modes= ;;
        esac
    done
    mapfile -t COMPREPLY < <(compgen -W "$modes $options" -- "$2")
}
complete -F _hexmatch hexmatch
