# What bash completes behind `cookie-jar`: options, their values, commands and files.

# Reads the words before the one that is completed: into `plain` those that are no options, into `option` the one whose
# value is next, and into `over` whether `--` was there. It ends with status 1 where none begins there.
_cookie_jar_read() {
    local given i
    for ((i = 1; i < COMP_CWORD; i++)); do
        given=${COMP_WORDS[i]}
        if [[ $given == [=:]* ]]; then
            # Bash cuts words there. Behind an option its value follows, else the rest of a word.
            [[ $option ]] || ((i++))
        elif [[ $over || $given != -?* ]]; then
            [[ $option ]] || plain+=("$given")
            option=''
        else
            option=''
            case $given in
                --) over=1 ;;
                --now | --suffixes | --format | --wait | --rules) option=$given ;;
                --domain | --file-format | --for | --from) option=$given ;;
            esac
        fi
    done
    ((i == COMP_CWORD))
}

# Puts into `found` the rules that a list may have behind its last comma, into `front` what it has up to there, and
# into `word` the rest.
_cookie_jar_rules() {
    local before given
    found=' long-attributes dates long-lives control too-long secure-prefix host-prefix secure-from-http'
    found+=' secure-overlay lax-by-default none-needs-secure '
    front=${word%"${word##*,}"} word=${word##*,}
    [[ $front ]] || found+='browser none'
    IFS=, read -ra before <<< "$front"
    for given in "${before[@]}"; do
        [[ $found == *" $given "* ]] || found=''
        found=${found/" $given "/ }
    done
    compopt -o nospace 2>/dev/null
}

# Puts the options into `found` that the command has.
_cookie_jar_options() {
    found='--now --suffixes --format --wait --rules --verbose --help --version'
    case ${plain[1]-} in
        receive) found+=' --from --navigate --one' ;;
        header) found+=' --from --navigate' ;;
        list) found+=' --json --domain' ;;
        import) found+=' --strict --file-format' ;;
        export) found+=' --for --file-format' ;;
        get | set | explain | remove | clear) ;;
        '') [[ ${COMP_WORDS[1]} == url ]] && found='--help --version' ;;
        *) found='' ;;
    esac
}

# Puts the values of the option, or the commands, into `found`; where a file may stand, `files` says so.
_cookie_jar_words() {
    case $option:${#plain[@]} in
        --suffixes:*) files=1 ;;
        --format:* | --file-format:*) found='ron json txt' ;;
        --for:*) found='curl wget python' ;;
        --rules:*) _cookie_jar_rules ;;
        :0)
            files=1
            # It stands in the place of JAR, and before it no option may.
            ((COMP_CWORD == 1)) && found=url
            ;;
        :1)
            found='receive header get set list explain remove clear import export'
            [[ ${COMP_WORDS[1]} == url ]] && found=''
            ;;
        :2) [[ ${COMP_WORDS[1]} != url && ${plain[1]} == @(import|export) ]] && files=1 ;;
    esac
}

_cookie_jar() {
    local word=${COMP_WORDS[COMP_CWORD]} option='' over='' front='' found='' files='' plain=()
    COMPREPLY=()
    _cookie_jar_read || return
    [[ $option && $word == '=' ]] && word=''
    if [[ ! $option && ! $over && $word == -* ]]; then
        _cookie_jar_options
    else
        _cookie_jar_words
    fi
    [[ $files ]] && compopt -o filenames 2>/dev/null
    mapfile -t COMPREPLY < <(compgen -P "$front" -W "$found" -- "$word"; [[ $files ]] && compgen -f -- "$word")
}
complete -F _cookie_jar cookie-jar
