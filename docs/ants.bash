# Completion of the words of `ants` for bash, and for zsh behind `autoload -U bashcompinit && bashcompinit`.
# Made of the table of commands by `make documents`.
_ants() {
    [ -z "${ZSH_VERSION-}" ] || setopt localoptions ksharrays shwordsplit
    local word=${COMP_WORDS[COMP_CWORD]} before=${COMP_WORDS[COMP_CWORD-1]} options=
    COMPREPLY=()
    if [ "$COMP_CWORD" -eq 1 ]; then
        COMPREPLY=($(compgen -W 'run save resume advance view trace events acts profile cup workload show gen brain minimise same asm help --help --version' -- "$word"))
        return
    fi
    case ${COMP_WORDS[1]} in
    run) options='--seed --rounds --dump --workers --window --surround --corpse --rest --stats --far' ;;
    save) options='--seed --rounds --workers --window --surround --corpse --rest' ;;
    resume) options='--rounds --dump --workers --stats' ;;
    advance) options='--rounds --workers' ;;
    view) options='--seed --rounds --from' ;;
    trace) options='--seed --rounds --from --surround --corpse --rest' ;;
    events) options='--seed --rounds --from --surround --corpse --rest --food' ;;
    acts) options='--seed --rounds --from --ant --surround --corpse --rest' ;;
    profile) options='--seed --rounds --from --surround --corpse --rest' ;;
    cup) options='--worlds --brains --seed --seeds --rounds --workers --games --leads --gauntlet' ;;
    gen) options='--width --height --rocks --blobs' ;;
    minimise) options='--states' ;;
    same) options='--way' ;;
    asm) options='--labels --lines' ;;
    esac
    case $before in
    --seed | --seeds | --rounds | --workers | --window | --surround | --corpse | --rest | --width | --height | --rocks | --blobs | --from | --ant) return ;;
    --dump) COMPREPLY=($(compgen -W 'none all' -- "$word")); return ;;
    esac
    case $word in
    -*)
        for before in "${COMP_WORDS[@]}"; do
            [ "$before" = "$word" ] || options=" $options " options=${options/ $before / }
        done
        COMPREPLY=($(compgen -W "$options" -- "$word")) ;;
    *)
        while IFS= read -r before; do COMPREPLY+=("$before"); done < <(compgen -f -- "$word") ;;
    esac
}
complete -o filenames -F _ants ants
