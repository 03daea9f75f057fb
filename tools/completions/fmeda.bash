# Completion of fmeda for bash.
_fmeda() {
    local current=${COMP_WORDS[COMP_CWORD]} previous=${COMP_WORDS[COMP_CWORD - 1]} command=${COMP_WORDS[1]} options=
    COMPREPLY=()
    if [ "$COMP_CWORD" -eq 1 ]; then
        COMPREPLY=($(compgen -W "classes check run resume audit report shard merge reweigh pairs parts faults progress breakdown latencies coverage trace always gen" -- "$current"))
        return
    fi
    case $previous in
        --asil) COMPREPLY=($(compgen -W "B C D" -- "$current")); return ;;
        --flips | --upsets | --pulses | --intervals) COMPREPLY=($(compgen -W "none" -- "$current")); return ;;
        --nets) COMPREPLY=($(compgen -W "differing all" -- "$current")); return ;;
        --ftti | --window | --ahead | --workers | --part | --of | --every | --run | --fault) return ;;
    esac
    case $command in
        check) options="--flips --upsets --pulses" ;;
        run | resume) options="--ftti --flips --upsets --pulses --asil --workers" ;;
        audit) options="--every --alone --ftti --flips --upsets --pulses" ;;
        merge | reweigh | faults) options="--ftti --flips --upsets --pulses" ;;
        report | progress) options="--ftti --flips --upsets --pulses --asil" ;;
        shard) options="--part --of --ftti --flips --upsets --pulses" ;;
        breakdown) options="--ftti --flips --upsets --pulses --asil --intervals --workers" ;;
        trace) options="--run --fault --flips --upsets --pulses --nets" ;;
        always) options="--ftti --window --ahead --flips --upsets --pulses --asil" ;;
        latencies|coverage) options="--ftti --flips --upsets --pulses --asil --workers" ;;
        pairs) options="--ftti --flips --upsets --pulses --workers" ;;
        gen) options="--workers" ;;
    esac
    case $current in
        -*) COMPREPLY=($(compgen -W "$options" -- "$current")) ;;
        *) COMPREPLY=($(compgen -f -- "$current")) ;;
    esac
}
complete -o filenames -F _fmeda fmeda
