# Completion of rubewola for bash: commands, options and fields; files where there is none of these.
_rubewola() {
    local IFS=$'\n'
    COMPREPLY=($(rubewola --complete "${COMP_WORDS[@]:1:COMP_CWORD}" 2>/dev/null))
    # A field wants its value right behind it.
    [[ ${COMPREPLY[0]} == *: ]] && compopt -o nospace 2>/dev/null
    return 0
}
complete -o default -F _rubewola rubewola
