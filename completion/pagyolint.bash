# Completion in bash for exline, exsheet, checklist and excompare: options, and files where a program takes them.

_pagyolint() {
    local program=${1##*/} word=$2 options='-h --help --version' operands=0 ended='' i
    COMPREPLY=()

    # What stands before the word: how many operands, whether -- has ended the options, and whether -a waits for its file.
    for ((i = 1; i < COMP_CWORD; i++)); do
        case $ended${COMP_WORDS[i]} in
        -a)
            i=$((i + 1))
            if [[ $i == "$COMP_CWORD" ]]; then
                mapfile -t COMPREPLY < <(compgen -f -- "$word")
                return
            fi
            ;;
        --) ended=/ ;;
        -?*) ;;
        *) operands=$((operands + 1)) ;;
        esac
    done

    if [[ $ended$word == -* ]]; then
        # Only exsheet takes an option behind another argument.
        case $program:$COMP_CWORD in
        exsheet:*) options="-a $options" ;;
        *:1) ;;
        *) return ;;
        esac
        mapfile -t COMPREPLY < <(compgen -W "$options" -- "$word")
        return
    fi

    case $program:$operands in
    exsheet:0 | excompare:[01]) mapfile -t COMPREPLY < <(compgen -f -- "$word") ;;
    esac
}

complete -o filenames -F _pagyolint exline exsheet checklist excompare
