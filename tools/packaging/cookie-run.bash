# What bash completes behind `cookie-run`: its two options, and the files of the suffix list and of the store.
_cookie_run() {
    local word=${COMP_WORDS[COMP_CWORD]}
    COMPREPLY=()
    if [[ $COMP_CWORD == 1 && $word == -* ]]; then
        mapfile -t COMPREPLY < <(compgen -W '--help --version' -- "$word")
    elif [[ $COMP_CWORD == 1 || $COMP_CWORD == 3 ]]; then
        compopt -o filenames 2>/dev/null
        mapfile -t COMPREPLY < <(compgen -f -- "$word")
    fi
}
complete -F _cookie_run cookie-run
