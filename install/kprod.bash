# Completes the words of kprod in bash: its commands, the options that a command's --help has, and files.
_kprod() {
    local word=${COMP_WORDS[COMP_CWORD]} words
    if [ "$COMP_CWORD" -eq 1 ]; then
        words='pack replay run send --help --version'
    elif [ "${word#-}" != "$word" ]; then
        words=$("${COMP_WORDS[0]}" "${COMP_WORDS[1]}" --help 2> /dev/null < /dev/null | grep -oE -- '--[a-z][a-z.-]*' | sort -u)
    else
        mapfile -t COMPREPLY < <(compgen -f -- "$word")
        return
    fi
    mapfile -t COMPREPLY < <(compgen -W "$words" -- "$word")
}
complete -o filenames -F _kprod kprod
