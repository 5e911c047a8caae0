# Completion of jj-filesets for fish: an expression is often a path.
complete -c jj-filesets -F -a 'all() none()'
complete -c jj-filesets -s z -l null -d 'lines end in NUL'
complete -c jj-filesets -l skip-invalid -d 'skip lines that are no paths'
complete -c jj-filesets -l fail-if-none -d 'status 1 if no line is in the set'
complete -c jj-filesets -s h -l help -d 'print help'
complete -c jj-filesets -s V -l version -d 'print the version'
