# Completion for bash: the words of the program, folders of projects, and the names of a project as its sources define them.
# usage, in ~/.bashrc: . /path/to/editors/morph.bash

# the names of the project in a folder
_morph_names() {
    local file
    sed -n 's/^[ \t]*\(lexc\|twolc\)[ \t][ \t]*\([^ \t]*\).*/\2/p' "$1/project" 2>/dev/null
    sed -n 's/^[ \t]*xfst[ \t][ \t]*\([^ \t]*\).*/\1/p' "$1/project" 2>/dev/null | while read -r file; do
        sed -n 's/[!#].*//; s/.*\<define[ \t][ \t]*\([^] \t();|&~$*+^:,?_.<>=@"%{}\\/[-]*\).*/\1/p' "$1/$file" 2>/dev/null
    done
}

# the names of its two-level grammars
_morph_grammars() {
    sed -n 's/^[ \t]*twolc[ \t][ \t]*\([^ \t]*\).*/\1/p' "$1/project" 2>/dev/null
}

# folders, from those on which a file `project` stands
_morph_folders() {
    local found=() it
    while IFS= read -r it; do found+=("$it/"); done < <(compgen -d -- "$1")
    COMPREPLY=("${found[@]}")
    compopt -o nospace 2>/dev/null
    if [ "${#found[@]}" -eq 1 ] && [ -e "${found[0]}project" ]; then
        COMPREPLY=("${found[0]%/}")
        compopt +o nospace 2>/dev/null
    fi
}

# the files of a folder, by their names
_morph_files_in() {
    COMPREPLY=($(cd "$1" 2>/dev/null && compgen -f -- "$2"))
}

_morph_files() {
    COMPREPLY=($(compgen -f -- "$1"))
    compopt -o filenames 2>/dev/null
}

_morph() {
    local word=${COMP_WORDS[COMP_CWORD]} i
    COMPREPLY=()
    for ((i = 1; i < COMP_CWORD; i++)); do
        if [ "${COMP_WORDS[i]}" = -- ]; then
            _morph_files "$word"
            return
        fi
    done
    case $COMP_CWORD in
        1) COMPREPLY=($(compgen -W 'check up down gloss serve gen att attup pairs equal within help' -- "$word")) ;;
        2) case ${COMP_WORDS[1]} in check | up | down | gloss | serve | att | attup | pairs | equal | within) _morph_folders "$word" ;; esac ;;
        3) case ${COMP_WORDS[1]} in
            up | down | gloss | att | equal | within) COMPREPLY=($(compgen -W "$(_morph_names "${COMP_WORDS[2]}")" -- "$word")) ;;
            pairs) COMPREPLY=($(compgen -W "$(_morph_grammars "${COMP_WORDS[2]}")" -- "$word")) ;;
            attup) _morph_files_in "${COMP_WORDS[2]}" "$word" ;;
            serve) COMPREPLY=($(compgen -W '--' -- "$word")) ;;
        esac ;;
        4) case ${COMP_WORDS[1]} in equal | within) COMPREPLY=($(compgen -W "$(_morph_names "${COMP_WORDS[2]}")" -- "$word")) ;; esac ;;
    esac
}

_morph_lint() {
    [ "$COMP_CWORD" -ne 1 ] || _morph_folders "${COMP_WORDS[COMP_CWORD]}"
}

_morph_expect() {
    case $COMP_CWORD in
        1) _morph_folders "${COMP_WORDS[COMP_CWORD]}" ;;
        2) _morph_files "${COMP_WORDS[COMP_CWORD]}" ;;
    esac
}

_morph_draw() {
    [ "$COMP_CWORD" -ne 1 ] || _morph_files "${COMP_WORDS[COMP_CWORD]}"
}

complete -F _morph morph ./morph try ./try
complete -F _morph_lint lint ./lint
complete -F _morph_expect expect ./expect
complete -F _morph_draw draw ./draw
