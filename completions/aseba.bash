# Completions of bash for `aseba`: source this file.
_aseba() {
    local word=${COMP_WORDS[COMP_CWORD]} tool=${COMP_WORDS[1]} words
    COMPREPLY=()
    if [ "$COMP_CWORD" -eq 1 ]; then
        mapfile -t COMPREPLY < <(compgen -W "sim compile node dump" -- "$word")
        return
    fi
    case $tool in
        sim) words="default --script" ;;
        compile) words="default" ;;
        node) words="default tcp:" ;;
        dump) words="--raw" ;;
        *) return ;;
    esac
    mapfile -t COMPREPLY < <(compgen -W "$words" -- "$word"; compgen -f -- "$word")
}
complete -o filenames -F _aseba aseba ./aseba
