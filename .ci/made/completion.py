"""docs/ants.bash: the completion of the program's words, made of the table of commands."""
from words import Words

PAGE = """# Completion of the words of `ants` for bash, and for zsh behind `autoload -U bashcompinit && bashcompinit`.
# Made of the table of commands by `make documents`.
_ants() {
    [ -z "${ZSH_VERSION-}" ] || setopt localoptions ksharrays shwordsplit
    local word=${COMP_WORDS[COMP_CWORD]} before=${COMP_WORDS[COMP_CWORD-1]} options=
    COMPREPLY=()
    if [ "$COMP_CWORD" -eq 1 ]; then
        COMPREPLY=($(compgen -W '%(commands)s' -- "$word"))
        return
    fi
    case ${COMP_WORDS[1]} in
%(options)s
    esac
    case $before in
    %(numbers)s) return ;;
    %(dumps)s) COMPREPLY=($(compgen -W 'none all' -- "$word")); return ;;
    esac
    case $word in
    -*)
        for before in "${COMP_WORDS[@]}"; do
            [ "$before" = "$word" ] || options=" $options " options=${options/ $before / }
        done
        COMPREPLY=($(compgen -W "$options" -- "$word")) ;;
    *)
        while IFS= read -r before; do COMPREPLY+=("$before"); done < <(compgen -f -- "$word") ;;
    esac
}
complete -o filenames -F _ants ants
"""


def page():
    words = Words()
    known = {command: (words.keywords if command == "cup" else []) + options for command, options in words.commands.items()}
    return PAGE % {
        "commands": " ".join(words.commands),
        "options": "\n".join("    %s) options='%s' ;;" % (command, " ".join(options)) for command, options in known.items() if options),
        "numbers": " | ".join(it for it, form in words.forms.items() if form in ("needed", "number", "one")),
        "dumps": " | ".join(it for it, form in words.forms.items() if form == "dump"),
    }
