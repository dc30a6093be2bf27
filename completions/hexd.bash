# Completion of hexd's words for bash: one mode, and each option once. tools/options writes it.
_hexd() {
    local modes='htp check migrate audit sim bench solve'
    # All options, and those that take a value.
    local options=' --size --workers --playouts --seed --words --expand --weight --hsearch --solve --look --steps --budget --best --trace '
    local valued=' --size --workers --playouts --seed --words --expand --weight --hsearch --solve --look --steps --budget --best --trace '
    local at word name=${COMP_WORDS[COMP_CWORD-1]}
    # bash cuts `--name=value` in three at the sign.
    [ "$name" = = ] && name=${COMP_WORDS[COMP_CWORD-2]}
    case $name in
        --hsearch)
            mapfile -t COMPREPLY < <(compgen -W 'on off' -- "$2")
            return ;;
        --best)
            mapfile -t COMPREPLY < <(compgen -W 'on off' -- "$2")
            return ;;
        --trace)
            compopt -o filenames 2>/dev/null
            mapfile -t COMPREPLY < <(compgen -f -- "$2")
            return ;;
        --?*)
            [[ $valued != *" $name "* ]] || return ;;
    esac
    for ((at = 1; at < COMP_CWORD; at++)); do
        word=${COMP_WORDS[at]}
        case $word in
            # Behind it no word is an option.
            --) options= ;;
            --*)
                options=${options/" $word "/ }
                if [[ $valued == *" $word "* ]]; then
                    # The option's value, which is no mode.
                    [ "${COMP_WORDS[at+1]}" = = ] && at=$((at + 1))
                    at=$((at + 1))
                fi ;;
            *) modes= ;;
        esac
    done
    mapfile -t COMPREPLY < <(compgen -W "$modes $options" -- "$2")
}
complete -F _hexd hexd
