# Completes the options of aerodrome, aerodrome-merge, aerodrome-refine, aerodrome-page and aerodrome-sarif for bash, and the commands of
# aerodrome-go. `make install` puts it where bash-completion finds it; `. completions/aerodrome.bash` has it in one shell.
_aerodrome() {
    local word=${COMP_WORDS[COMP_CWORD]} before=${COMP_WORDS[COMP_CWORD - 1]} earlier options kind=none values
    COMPREPLY=()
    # (bash takes the = between an option and its value as a word)
    if [ "$word" = = ]; then
        word=
    elif [ "$before" = = ]; then
        before=${COMP_WORDS[COMP_CWORD - 2]}
    fi
    # (bash completes files where nothing is answered)
    for earlier in "${COMP_WORDS[@]:1:COMP_CWORD-1}"; do
        [ "$earlier" != -- ] || return 0
    done
    case ${COMP_WORDS[0]##*/} in
        aerodrome-go)
            [ "$COMP_CWORD" != 1 ] || COMPREPLY=($(compgen -W 'build run test install' -- "$word"))
            return 0
            ;;
        # (from _aerodrome, by tools/completions:
        aerodrome-merge) options='--fail-open --fail-unchecked --help' ;;
        aerodrome-refine) options='--except --except-from --only --only-from --most --passes --format --output --continue --check
        --progress --quiet --long --fail-open --fail-unchecked --help' ;;
        aerodrome-page) options='--output --folder --root --no-traces --context --pictures --rows --help' ;;
        aerodrome-sarif) options='--output --folder --root --no-traces --help' ;;
        *) options='--workers --piece --except --only --except-from --only-from --order --explain --long --stop --end --format --progress
        --quiet --files0-from --label --fail-open --fail-unchecked --help --version' ;;
        # )
    esac
    case $before in
        # (from _aerodrome, by tools/completions:
        --format) kind=words values='text json' ;;
        --workers) kind=words values='1 2 4 8 16' ;;
        --except | --except-from | --only | --only-from | --most | --passes | --output | --continue | --check) kind=other ;;
        --context | --pictures | --rows | --piece | --files0-from | --label) kind=other ;;
        --folder | --root) kind=folders ;;
        # )
    esac
    case $kind in
        words) COMPREPLY=($(compgen -W "$values" -- "$word")) ;;
        folders)
            # (so that bash quotes blanks, and writes a / after a folder)
            compopt -o filenames 2> /dev/null
            mapfile -t COMPREPLY < <(compgen -A directory -- "$word")
            ;;
        none)
            case $word in
                -*) COMPREPLY=($(compgen -W "$options" -- "$word")) ;;
            esac
            ;;
    esac
}
complete -o default -F _aerodrome aerodrome aerodrome-merge aerodrome-refine aerodrome-page aerodrome-sarif aerodrome-go
