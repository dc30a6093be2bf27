# Completion of hexd-solve's words for bash: each option once, and a file. tools/options writes it.
_hexd_solve() {
    local modes=''
    # All options, and those that take a value.
    local options=' --budget --hsearch --json --program --help --version '
    local valued=' --budget --hsearch --program '
    local at word name=${COMP_WORDS[COMP_CWORD-1]}
    # bash cuts `--name=value` in three at the sign.
    [ "$name" = = ] && name=${COMP_WORDS[COMP_CWORD-2]}
    case $name in
        --hsearch)
            mapfile -t COMPREPLY < <(compgen -W 'on off' -- "$2")
            return ;;
        --program)
            compopt -o filenames 2>/dev/null
            mapfile -t COMPREPLY < <(compgen -f -- "$2")
            return ;;
        --?*)
            [[ $valued != *" $name "* ]] || return ;;
    esac
    for ((at = 1; at < COMP_CWORD; at++)); do
        word=${COMP_WORDS[at]}
        case $word in
            # Behind it no word is an option.
            --) options= ;;
            --*)
                options=${options/" $word "/ }
                if [[ $valued == *" $word "* ]]; then
                    # The option's value, which is no mode.
                    [ "${COMP_WORDS[at+1]}" = = ] && at=$((at + 1))
                    at=$((at + 1))
                fi ;;
            *) modes= ;;
        esac
    done
    compopt -o filenames 2>/dev/null
    mapfile -t COMPREPLY < <(compgen -W "$options" -- "$2"; [[ $2 == -* ]] || compgen -f -- "$2")
}
complete -F _hexd_solve hexd-solve
