# Completion of jj-history for bash.
_jj_history() {
    COMPREPLY=()
    case $COMP_CWORD in
        1) mapfile -t COMPREPLY < <(compgen -f -- "${COMP_WORDS[COMP_CWORD]}") ;;
        2) mapfile -t COMPREPLY < <(compgen -W 'import log heads refs bases show files cat diff merge check batch' -- "${COMP_WORDS[COMP_CWORD]}") ;;
    esac
}
complete -o filenames -F _jj_history jj-history
