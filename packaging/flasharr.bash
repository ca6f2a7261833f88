# Completion for flasharr.
_flasharr() {
    local word=${COMP_WORDS[COMP_CWORD]} command=${COMP_WORDS[1]:-} commands options
    commands=$(flasharr --help | sed -n '/^Commands:/,/^$/s/^  \([a-z]*\) .*/\1/p')
    if [ "$COMP_CWORD" = 1 ]; then
        mapfile -t COMPREPLY < <(compgen -W "$commands --help --version" -- "$word")
    elif [[ $word == -* ]]; then
        options=$(flasharr "$command" --help 2> /dev/null | grep -o -e '--[a-z]*' | sort -u)
        mapfile -t COMPREPLY < <(compgen -W "$options" -- "$word")
    else
        compopt -o filenames
        mapfile -t COMPREPLY < <(compgen -f -X '!*.toml' -- "$word"; compgen -d -- "$word")
    fi
}
complete -F _flasharr flasharr
