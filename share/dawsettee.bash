# Completion of dawsettee's words for bash. Source it, or put it into bash-completion's folder.

_dawsettee() {
    local commands="key put get settings"
    local word=${COMP_WORDS[COMP_CWORD]} before=${COMP_WORDS[COMP_CWORD-1]} options
    # Bash takes the sign between a name and its value as a word of its own.
    if [[ $word == = ]]; then
        word=
    elif [[ $before == = ]]; then
        before=${COMP_WORDS[COMP_CWORD-2]}
    fi
    if ((COMP_CWORD == 1)); then
        mapfile -t COMPREPLY < <(compgen -W "$commands --help --version" -- "$word")
        return
    fi
    case $before in
    --layout)
        mapfile -t COMPREPLY < <(compgen -W "folder database foz" -- "$word")
        return
        ;;
    --root)
        compopt -o filenames
        mapfile -t COMPREPLY < <(compgen -d -- "$word")
        return
        ;;
    --id | --gpu | --flags | --limit | --meta)
        return
        ;;
    esac
    case ${COMP_WORDS[1]} in
    key) options="--id= --gpu= --flags=" ;;
    put) options="--id= --gpu= --flags= --root= --layout= --limit= --meta=" ;;
    get) options="--id= --gpu= --flags= --root= --layout=" ;;
    *) options="" ;;
    esac
    compopt -o nospace
    mapfile -t COMPREPLY < <(compgen -W "$options" -- "$word")
}

complete -F _dawsettee dawsettee
