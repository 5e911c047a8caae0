# Completion of jj-filesets for bash: an expression is often a path.
_jj_filesets() {
    local word=${COMP_WORDS[COMP_CWORD]}
    case $word in
        -*) mapfile -t COMPREPLY < <(compgen -W '-z --null --skip-invalid --fail-if-none -h --help -V --version' -- "$word") ;;
        *) mapfile -t COMPREPLY < <(compgen -W 'all() none()' -f -- "$word") ;;
    esac
}
complete -o filenames -F _jj_filesets jj-filesets
