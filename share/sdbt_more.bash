# Completes the words of sdbt_more in bash: . share/sdbt_more.bash

# The folders that the word in hand may become.
_sdbt_more_folders() {
    local folder
    while IFS= read -r folder; do
        COMPREPLY+=("$folder")
    done < <(compgen -d -- "$1")
    compopt -o filenames 2>/dev/null
}

# The cells that it may become: folders and indices.
_sdbt_more_cells() {
    COMPREPLY=($(compgen -W 'tpm:0x' -- "$1"))
    test "${#COMPREPLY[@]}" = 0 || compopt -o nospace 2>/dev/null
    _sdbt_more_folders "$1"
}

# The switches that it may become, and else folders.
_sdbt_more_switches() {
    COMPREPLY=($(compgen -W "$2" -- "$1"))
    test "${#COMPREPLY[@]}" != 0 && test -n "$1" || _sdbt_more_folders "$1"
}

_sdbt_more() {
    local word=${COMP_WORDS[COMP_CWORD]} place=$COMP_CWORD at=2 switches switch
    COMPREPLY=()
    if [ "$place" = 1 ]; then
        COMPREPLY=($(compgen -W 'nbd volumes transfer -h --help --version' -- "$word"))
        return
    fi
    case ${COMP_WORDS[1]} in
    nbd | volumes) switches=--root ;;
    transfer) switches='--from-root --to-root' ;;
    *) return ;;
    esac
    # Each switch may stand once, in this order, with its CELL behind it.
    for switch in $switches; do
        if [ "$place" -gt "$at" ] && [ "${COMP_WORDS[at]}" = "$switch" ]; then
            if [ "$place" = $((at + 1)) ]; then
                _sdbt_more_cells "$word"
                return
            fi
            at=$((at + 2))
            switches=${switches#*"$switch"}
        fi
    done
    if [ "$place" = "$at" ]; then
        _sdbt_more_switches "$word" "$switches"
    elif [ "$place" = $((at + 1)) ] && [ "${COMP_WORDS[1]}" = transfer ]; then
        _sdbt_more_folders "$word"
    fi
}

complete -F _sdbt_more sdbt_more ./sdbt_more
