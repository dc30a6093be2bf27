# Completion of hexd-board's words for bash: each option once. tools/options writes it.
_hexd_board() {
    local modes=''
    # All options, and those that take a value.
    local options=' --playouts --weight --workers --open --port --listen --program --help --version '
    local valued=' --playouts --weight --workers --port --listen --program '
    local at word name=${COMP_WORDS[COMP_CWORD-1]}
    # bash cuts `--name=value` in three at the sign.
    [ "$name" = = ] && name=${COMP_WORDS[COMP_CWORD-2]}
    case $name in
        --program)
            compopt -o filenames 2>/dev/null
            mapfile -t COMPREPLY < <(compgen -f -- "$2")
            return ;;
        --?*)
            [[ $valued != *" $name "* ]] || return ;;
    esac
    for ((at = 1; at < COMP_CWORD; at++)); do
        word=${COMP_WORDS[at]}
        case $word in
            # Behind it no word is an option.
            --) options= ;;
            --*)
                options=${options/" $word "/ }
                if [[ $valued == *" $word "* ]]; then
                    # The option's value, which is no mode.
                    [ "${COMP_WORDS[at+1]}" = = ] && at=$((at + 1))
                    at=$((at + 1))
                fi ;;
            *) modes= ;;
        esac
    done
    mapfile -t COMPREPLY < <(compgen -W "$modes $options" -- "$2")
}
complete -F _hexd_board hexd-board
