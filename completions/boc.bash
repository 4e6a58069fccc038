# Completion of `boc` for bash: its commands, the options of each, and files. Numbers and names of cowns are not completed.
# Written by bin/pages from bin/lib/pages.toml. Change that, and run it again.

# The options of a command, or of none.
_boc_options() {
    case $1 in
    '') echo -h --help -V --version ;;
    values) echo -h --help --record --quiet ;;
    check) echo -h --help --program ;;
    cut) echo -h --help --from --rows --names --out-names --quiet --tiles ;;
    run) echo -h --help -w --workers --seed --depth --timed --quiet ;;
    profile) echo -h --help -w --workers --seed --depth --timed --record -p --p --shared-reads --typical --no-plan --quiet ;;
    time) echo -h --help -w --workers --seed --depth --timed -p --p --shared-reads --no-plan --quiet ;;
    whatif) echo -h --help --without --early -w --workers --seed --depth --timed --record --program --names -p --p --shared-reads --typical --short --no-plan ;;
    curve) echo -h --help -w --workers --seed --depth --timed --record -p --p --shared-reads --typical ;;
    sweep) echo -h --help --cowns -w --workers --seed --depth --timed --record --names -p --p --shared-reads --typical --best --spawns ;;
    why) echo -h --help -w --workers --seed --depth --timed --record --names -p --p --shared-reads --typical --all --then --quiet --runs ;;
    cowns) echo -h --help -w --workers --seed --depth --timed --record --names -p --p --top --shared-reads --typical --quiet ;;
    compare) echo -h --help -w --workers --seed --depth --timed --names --names-a --names-b -p --p --shared-reads --typical --quiet --runs ;;
    outcomes) echo -h --help --runs --seed -w --workers --depth --all --most --end ;;
    esac
}

_boc_files() {
    compopt -o filenames 2> /dev/null
    mapfile -t COMPREPLY < <(compgen -f -- "$1")
}

_boc_words() {
    mapfile -t COMPREPLY < <(compgen -W "$1" -- "$2")
}

_boc() {
    local commands='values check cut run profile time whatif curve sweep why cowns compare outcomes help'
    local current=${COMP_WORDS[COMP_CWORD]} option=${COMP_WORDS[COMP_CWORD - 1]} command='' are_options=yes at
    COMPREPLY=()
    for ((at = 1; at < COMP_CWORD; at++)); do
        case ${COMP_WORDS[at]} in
        --) are_options= ;;
        -*) ;;
        *) command=${command:-${COMP_WORDS[at]}} ;;
        esac
    done
    # bash takes `--record=FILE` and `2=1` for three words.
    if [[ $current == = ]]; then
        current=
        [[ $option == -* ]] || return
    elif [[ $option == = ]]; then
        option=${COMP_WORDS[COMP_CWORD - 2]}
        [[ $option == -* ]] || return
    fi
    if [[ $are_options ]]; then
        case $option in
        --out-names | --record | --program | --names | --names-a | --names-b) _boc_files "$current" && return ;;
        -w | --workers | --seed | --depth | --runs | -p | --p | --without | --early | --from | --rows | --tiles | --best | --top | --most | --end | --then) return ;;
        esac
    fi
    if [[ $current == -* && $are_options ]]; then
        _boc_words "$(_boc_options "$command")" "$current"
    elif [[ -z $command || $command == help ]]; then
        _boc_words "$commands" "$current"
    elif [[ " $commands " == *" $command "* ]]; then
        _boc_files "$current"
    fi
}

complete -F _boc boc
