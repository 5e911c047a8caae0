#compdef jj-log
_arguments \
    '(-z --null)'{-z,--null}'[fields that end in NUL]' \
    '--columns[the most columns]:columns:' \
    '--style[the characters]:style:(ascii unicode)' \
    '(-h --help)'{-h,--help}'[print help]' \
    '(-V --version)'{-V,--version}'[print the version]'
