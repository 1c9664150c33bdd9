# Completion of illcanon for fish: commands, options, topics of `help`, and files. The program's own help says which there are.

# What a help text lists under a heading, each with what it does.
function __illcanon_listed -a heading
    awk -v heading="$heading:" '
        $0 == heading { listed = 1; next }
        !NF { listed = 0 }
        listed {
            what = $0
            sub(/^ *((-., )?--[a-z-]+( <[A-Z]+>)?|[a-z-]+) +/, "", what)
            for (i = 1; i <= NF && (i == 1 || $i ~ /^-/); i++) { sub(/,$/, "", $i); print $i "\t" what }
        }'
end

# The command among the words before; empty where there is none.
function __illcanon_command
    for word in (commandline -opc)[2..]
        if not string match -q -- '-*' $word
            echo $word
            return
        end
    end
    echo
end

# The help text of the command, or of the program.
function __illcanon_help
    set -l command (__illcanon_command)
    if test -n "$command"
        illcanon $command --help
    else
        illcanon --help
    end
end

function __illcanon_profiles
    __illcanon_help | sed -n 's/^ *--profile .*\[possible values: \(.*\)\].*/\1/p' | string split ', '
end

function __illcanon_topics
    illcanon --help | sed -n 's/`illcanon help \([a-z]*\)`/\n\1\n/gp' | grep -x '[a-z]*'
end

complete -c illcanon -n 'test -z (__illcanon_command)' -f -a '(illcanon --help | __illcanon_listed Commands; illcanon --help | __illcanon_listed Options)'
complete -c illcanon -n 'test (__illcanon_command) = help' -f -a '(illcanon --help | __illcanon_listed Commands; __illcanon_topics)'
complete -c illcanon -n 'string match -q -- "-*" (commandline -ct)' -a '(__illcanon_help | __illcanon_listed Options)'
complete -c illcanon -n 'test -n (__illcanon_command)' -l profile -x -a '(__illcanon_profiles)'
