# Completion of jj-core for bash.
_jj_core() {
    COMPREPLY=()
    [ "$COMP_CWORD" -eq 1 ] && mapfile -t COMPREPLY < <(compgen -W 'walk merge graph hash -h --help -V --version' -- "${COMP_WORDS[COMP_CWORD]}")
}
complete -F _jj_core jj-core
