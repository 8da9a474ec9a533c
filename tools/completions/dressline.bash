# Completions of dressline for bash.
_dressline() {
    local word=$2 before=$3 command=${COMP_WORDS[1]} options=
    local files="lines canon info minimal dual oriented torus sheets ambo truncate chamfer"
    COMPREPLY=()
    if [ "$COMP_CWORD" = 1 ]; then
        COMPREPLY=($(compgen -W "catalogue resume shard resume-shard draw apply merge exercise $files" -- "$word"))
        return
    fi
    case $before in
    --cell) COMPREPLY=($(compgen -W "square hex own" -- "$word")); return ;;
    --checkpoint) COMPREPLY=($(compgen -f -- "$word")); return ;;
    --minimal) ;;
    --*) return ;;
    esac
    case $command in
    catalogue | shard) options="--tiles --vertices --faces --degrees --least-face --least-degree --minimal
        --workers --round --checkpoint --pause" ;;
    resume | resume-shard) options="--workers --round --pause" ;;
    draw) options="--cell" ;;
    esac
    case $word in
    -*) COMPREPLY=($(compgen -W "$options" -- "$word")) ;;
    *) case $command in
        catalogue | shard | exercise) ;;
        apply) [ "$COMP_CWORD" = 2 ] || COMPREPLY=($(compgen -f -- "$word")) ;;
        *) COMPREPLY=($(compgen -f -- "$word")) ;;
        esac ;;
    esac
}
complete -o filenames -F _dressline dressline
