# Completion of pslink for bash. Its commands and options are written by make_completions.py.

_pslink() {
    local current=${COMP_WORDS[COMP_CWORD]} command="" only_files="" value="" files=0 word options
    COMPREPLY=()
    for word in "${COMP_WORDS[@]:1:COMP_CWORD-1}"; do
        if [[ -z $command ]]; then
            [[ $word == -* ]] || command=$word
        elif [[ -n $value ]]; then
            # the value of an option, which may stand behind a sign of its own
            [[ $word == = ]] || value=""
        elif [[ -z $only_files && $command == link && $word =~ ^(-q*o|--output|--map)$ ]]; then
            value=yes
        elif [[ -z $only_files && $word == -- ]]; then
            only_files=yes
        elif [[ -n $only_files || $word != -* ]]; then
            files=$((files + 1))
        fi
    done
    # readline completes the name of the file that an option wants
    if [[ -n $value ]]; then
        return
    fi
    case $command in
        '') options='link map show check list help --help --version' ;;
        link) options='--help --json --map --output --quiet --references' ;;
        map) options='--help --json --references' ;;
        show) options='--help --json' ;;
        check) options='--help --json --strict --unit' ;;
        list) options='--help --json' ;;
        help) options='link map show check list help' ;;
        *) options='' ;;
    esac
    case $command,$files in
        link,* | map,* | check,* | list,* | show,0)
            # readline completes the names of files where no word is given
            if [[ -n $only_files || $current != -* ]]; then
                return
            fi
            ;;
        show,*)
            # one file, and options after it
            if [[ -n $only_files || $current != -* ]]; then
                options=''
            fi
            ;;
        ,* | help,0) ;;
        *) options='' ;;
    esac
    compopt +o default
    mapfile -t COMPREPLY < <(compgen -W "$options" -- "$current")
}

complete -o default -F _pslink pslink
