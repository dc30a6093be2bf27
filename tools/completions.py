"""The completions of a program for bash, zsh and fish, by its rows of tools/options.txt."""

from option_rows import plain

# In place of NOTE stands who wrote it; a number is the user's own, so none is offered.
BASH = """# Completion of {name}'s words for bash: {what}. {note}
_{function}() {{
    local modes='{modes}'
    # All options, and those that take a value.
    local options=' {options} '
    local valued=' {valued} '
    local at word name=${{COMP_WORDS[COMP_CWORD-1]}}
    # bash cuts `--name=value` in three at the sign.
    [ "$name" = = ] && name=${{COMP_WORDS[COMP_CWORD-2]}}
    case $name in
{cases}        --?*)
            [[ $valued != *" $name "* ]] || return ;;
    esac
    for ((at = 1; at < COMP_CWORD; at++)); do
        word=${{COMP_WORDS[at]}}
        case $word in
            # Behind it no word is an option.
            --) options= ;;
            --*)
                options=${{options/" $word "/ }}
                if [[ $valued == *" $word "* ]]; then
                    # The option's value, which is no mode.
                    [ "${{COMP_WORDS[at+1]}}" = = ] && at=$((at + 1))
                    at=$((at + 1))
                fi ;;
            *) modes= ;;
        esac
    done
{last}}}
complete -F _{function} {name}
"""
WORDS_CASE = """        {names})
            mapfile -t COMPREPLY < <(compgen -W '{choices}' -- "$2")
            return ;;
"""
FILES_CASE = """        {names})
            compopt -o filenames 2>/dev/null
            mapfile -t COMPREPLY < <(compgen -f -- "$2")
            return ;;
"""
LAST = """    mapfile -t COMPREPLY < <(compgen -W "$modes $options" -- "$2")
"""
LAST_WITH_FILES = """    compopt -o filenames 2>/dev/null
    mapfile -t COMPREPLY < <(compgen -W "$options" -- "$2"; [[ $2 == -* ]] || compgen -f -- "$2")
"""


def parts(rows):
    """The modes, the options, and the files that stand alone."""
    options = [row for row in rows if row.is_option()]
    modes = [row for row in rows if row.is_mode()]
    return modes, options, [row for row in rows if row not in options + modes]


def what_is_offered(rows):
    modes, _, files = parts(rows)
    return f"{'one mode, and ' if modes else ''}each option once{', and a file' if files else ''}"


def names(rows, between=" "):
    return between.join(row.name for row in rows)


def bash(name, rows, note):
    modes, options, files = parts(rows)
    cases = [WORDS_CASE.format(names=row.name, choices=" ".join(row.choices())) for row in options if row.choices()]
    taking_files = [row for row in options if row.value == "FILE"]
    if taking_files:
        cases.append(FILES_CASE.format(names=names(taking_files, " | ")))
    return BASH.format(
        name=name, function=name.replace("-", "_"), what=what_is_offered(rows), note=note, modes=names(modes),
        options=names(options), valued=names(row for row in options if row.value), cases="".join(cases),
        last=LAST_WITH_FILES if files else LAST,
    )


def zsh_word(row):
    """What zsh's own function for options takes for a row."""
    says = plain(row.sentence).replace("'", "'\\''").replace("]", "\\]")
    if not row.is_option():
        return f"'1:{says}:_files'"
    message, action = {
        "": ("", ""), "N": (row.range, ""), "WORD": (row.range, f"({' '.join(row.choices())})"),
        "LIST": (row.range, ""), "FILE": ("file", "_files"), "ADDRESS": ("address", "_hosts"),
    }[row.value]
    return f"'{row.name}=[{says}]:{message}:{action}'" if row.value else f"'{row.name}[{says}]'"


def zsh(name, rows, note):
    modes, options, files = parts(rows)
    words = [zsh_word(row) for row in options + files]
    if modes:
        told = " ".join(row.name + '\\:"' + plain(row.sentence) + '"' for row in modes)
        words.append(f"'1:mode:(({told}))'")
    lines = [f"#compdef {name}", f"# Completion of {name}'s words for zsh: {what_is_offered(rows)}. {note}", "_arguments -S"]
    return "\n".join(lines) + "".join(f" \\\n    {word}" for word in words) + "\n"


def fish_line(name, row):
    says = plain(row.sentence)
    says = (says[0].upper() + says[1:]).replace("'", "\\'")
    if row.is_mode():
        return f"complete -c {name} -n \"not __fish_seen_subcommand_from $modes\" -a {row.name} -d '{says}'"
    takes = {"": "", "N": " -x", "LIST": " -x", "ADDRESS": " -x", "FILE": " -r -F"}.get(row.value, f" -x -a '{' '.join(row.choices())}'")
    about = f"{says}: {row.range}" if row.value else says
    return f"complete -c {name} -l {row.name[2:]}{takes} -d '{about}'"


def fish(name, rows, note):
    modes, options, files = parts(rows)
    lines = [f"# Completion of {name}'s words for fish: {what_is_offered(rows)}. {note}"]
    if modes:
        lines.append(f"set -l modes {names(modes)}")
    if not files:
        lines.append(f"complete -c {name} -f")
    return "\n".join(lines + [fish_line(name, row) for row in modes + options]) + "\n"
