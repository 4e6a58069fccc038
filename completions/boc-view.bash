# Completion of `boc-view` for bash: its commands, the options of each, and files. Numbers and names of cowns are not completed.
# Written by bin/pages from bin/lib/pages.toml. Change that, and run it again.

# The options of a command, or of none.
_boc_view_options() {
    case $1 in
    '') echo -h --help -V --version ;;
    text) echo -h --help --cowns --curve --width -w --workers --seed --depth --timed -p --p --shared-reads --typical --record --names ;;
    plan) echo -h --help --cowns -w --workers --seed --depth --timed -p --p --shared-reads --typical --record --names ;;
    curve) echo -h --help -w --workers --seed --depth --timed -p --p --shared-reads --typical --record --names ;;
    page) echo -h --help -w --workers --seed --depth --timed -p --p --shared-reads --typical --record --names --runs ;;
    trace) echo -h --help -w --workers --seed --depth --timed -p --p --shared-reads --typical --record --names ;;
    esac
}

_boc_view_files() {
    compopt -o filenames 2> /dev/null
    mapfile -t COMPREPLY < <(compgen -f -- "$1")
}

_boc_view_words() {
    mapfile -t COMPREPLY < <(compgen -W "$1" -- "$2")
}

_boc_view() {
    local commands='text plan curve page trace help'
    local current=${COMP_WORDS[COMP_CWORD]} option=${COMP_WORDS[COMP_CWORD - 1]} command='' are_options=yes at
    COMPREPLY=()
    for ((at = 1; at < COMP_CWORD; at++)); do
        case ${COMP_WORDS[at]} in
        --) are_options= ;;
        -*) ;;
        *) command=${command:-${COMP_WORDS[at]}} ;;
        esac
    done
    # bash takes `--record=FILE` and `2=1` for three words.
    if [[ $current == = ]]; then
        current=
        [[ $option == -* ]] || return
    elif [[ $option == = ]]; then
        option=${COMP_WORDS[COMP_CWORD - 2]}
        [[ $option == -* ]] || return
    fi
    if [[ $are_options ]]; then
        case $option in
        --record | --names) _boc_view_files "$current" && return ;;
        --width | -w | --workers | --seed | --depth | --runs | -p | --p) return ;;
        esac
    fi
    if [[ $current == -* && $are_options ]]; then
        _boc_view_words "$(_boc_view_options "$command")" "$current"
    elif [[ -z $command || $command == help ]]; then
        _boc_view_words "$commands" "$current"
    elif [[ " $commands " == *" $command "* ]]; then
        _boc_view_files "$current"
    fi
}

complete -F _boc_view boc-view
