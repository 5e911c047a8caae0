#compdef jj-filesets
_arguments \
    '(-z --null)'{-z,--null}'[lines end in NUL]' \
    '--skip-invalid[skip lines that are no paths]' \
    '--fail-if-none[status 1 if no line is in the set]' \
    '(-h --help)'{-h,--help}'[print help]' \
    '(-V --version)'{-V,--version}'[print the version]' \
    '1:expression:_files'
