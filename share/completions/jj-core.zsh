#compdef jj-core
_arguments \
    '(- 1)'{-h,--help}'[print help]' \
    '(- 1)'{-V,--version}'[print the version]' \
    '1:command:((walk\:"marked paths in a set, and directories to enter" merge\:"simplify or resolve conflicts" graph\:"orders, heads and merge bases" hash\:"BLAKE2b-512 digests"))'
