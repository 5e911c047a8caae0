# Completion of jj-log for bash: a number follows --columns, and a style --style.
_jj_log() {
    COMPREPLY=()
    local words='-z --null --columns --style -h --help -V --version'
    [ "${COMP_WORDS[COMP_CWORD-1]}" = --columns ] && return
    [ "${COMP_WORDS[COMP_CWORD-1]}" = --style ] && words='ascii unicode'
    mapfile -t COMPREPLY < <(compgen -W "$words" -- "${COMP_WORDS[COMP_CWORD]}")
}
complete -F _jj_log jj-log
