# The commands of the built program, as its own help lists them, for scripts that set `program`.

# commands: each command
commands() {
    "$program" --help | sed -n '/^Commands:/,/^$/s/^  \([a-z][a-z-]*\)  .*/\1/p' | grep -vx help
}

# commands_with OPTION: each command that has the option
commands_with() {
    local name
    for name in $(commands); do
        if "$program" "$name" --help | grep -q -- "^ .* $1\b"; then echo "$name"; fi
    done
}

# printing_with OPTION: each of them that reads messages, and prints its results
printing_with() { commands_with "$1" | grep -vxE 'canonicalise|build'; }

# words_of COMMAND: it, with the files that it needs besides one: IN, or the first of two
words_of() {
    case $1 in same | canonicalise | build) echo "$1 F" ;; *) echo "$1" ;; esac
}

# A list that misses a command would let a loop over it pass.
for name in show check digest dump same canonicalise build; do
    commands | grep -qx "$name" || { echo "commands.sh: the help doesn't list $name" && exit 1; }
done
for option in --json --max-refused --with-filename; do
    commands_with "$option" | grep -qx check || { echo "commands.sh: the help of check doesn't list $option" && exit 1; }
done
