# Completion of illcanon for bash: commands, options, topics of `help`, and files. The program's own help says which there are.

# _illcanon_listed HEADING PROGRAM WORD..: the names that the help of these words lists under the heading
_illcanon_listed() {
    "${@:2}" --help 2>/dev/null | awk -v heading="$1:" '
        $0 == heading { listed = 1; next }
        !NF { listed = 0 }
        listed { for (i = 1; i <= NF && (i == 1 || $i ~ /^-/); i++) { sub(/,$/, "", $i); print $i } }'
}

_illcanon() {
    local program=${COMP_WORDS[0]} word=${COMP_WORDS[COMP_CWORD]} command='' words='' options=yes before=$((COMP_CWORD - 1)) i
    for ((i = 1; i < COMP_CWORD; i++)); do
        case ${COMP_WORDS[i]} in
            # After it all words are files.
            --) options='' ;;
            -*) ;;
            *) command=${command:-${COMP_WORDS[i]}} ;;
        esac
    done
    # The value of --profile may come after `=`, which is a word of its own.
    [[ $word == = || ${COMP_WORDS[before]} != = ]] || before=$((before - 1))
    COMPREPLY=()
    if [[ $command && $options && ${COMP_WORDS[before]} == --profile ]]; then
        words=$("$program" "$command" --help 2>/dev/null | sed -n 's/, / /g; s/^ *--profile .*\[possible values: \(.*\)\].*/\1/p')
        word=${word#=}
    elif [[ -z $command ]]; then
        words="$(_illcanon_listed Commands "$program") $(_illcanon_listed Options "$program")"
    elif [[ $command == help ]]; then
        words="$(_illcanon_listed Commands "$program") $("$program" --help 2>/dev/null | sed -n 's/`illcanon help \([a-z]*\)`/\n\1\n/gp' | grep -x '[a-z]*')"
    elif [[ $options && $word == -* ]]; then
        words=$(_illcanon_listed Options "$program" "$command")
    else
        compopt -o default 2>/dev/null
        return 0
    fi
    mapfile -t COMPREPLY < <(compgen -W "$words" -- "$word")
}

complete -F _illcanon illcanon
