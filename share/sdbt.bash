# Completes the words of sdbt in bash: . share/sdbt.bash

# The folders that the word in hand may become.
_sdbt_folders() {
    local folder
    while IFS= read -r folder; do
        COMPREPLY+=("$folder")
    done < <(compgen -d -- "$1")
    compopt -o filenames 2>/dev/null
}

# The files of root records behind the word seize: @FILE.
_sdbt_records() {
    local file
    if [ "$1" = seize ] && [ "${2#@}" != "$2" ]; then
        while IFS= read -r file; do
            COMPREPLY+=("@$file")
        done < <(compgen -f -- "${2#@}")
        compopt -o nospace 2>/dev/null
    fi
}

_sdbt() {
    local word=${COMP_WORDS[COMP_CWORD]} place=$COMP_CWORD first=${COMP_WORDS[1]}
    COMPREPLY=()
    if [ "$place" -gt 1 ] && [ "$first" = --root ]; then
        # CELL, FOLDER, and the word behind them
        case $place in
        2)
            COMPREPLY=($(compgen -W 'tpm:0x' -- "$word"))
            test "${#COMPREPLY[@]}" = 0 || compopt -o nospace 2>/dev/null
            _sdbt_folders "$word"
            ;;
        3) _sdbt_folders "$word" ;;
        4) COMPREPLY=($(compgen -W 'run check seize work' -- "$word")) ;;
        *) _sdbt_records "${COMP_WORDS[4]}" "$word" ;;
        esac
        return
    fi
    case $place in
    1)
        COMPREPLY=($(compgen -W '- --root -h --help --version' -- "$word"))
        test "${#COMPREPLY[@]}" != 0 && test -n "$word" || _sdbt_folders "$word"
        ;;
    2)
        case $first in
        -h | --help | --version) ;;
        *) COMPREPLY=($(compgen -W 'run check seize work' -- "$word")) ;;
        esac
        ;;
    *) _sdbt_records "${COMP_WORDS[2]}" "$word" ;;
    esac
}

complete -F _sdbt sdbt ./sdbt
