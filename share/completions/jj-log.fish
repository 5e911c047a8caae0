# Completion of jj-log for fish.
complete -c jj-log -f
complete -c jj-log -s z -l null -d 'fields that end in NUL'
complete -c jj-log -l columns -x -d 'the most columns'
complete -c jj-log -l style -x -a 'ascii unicode' -d 'the characters'
complete -c jj-log -s h -l help -d 'print help'
complete -c jj-log -s V -l version -d 'print the version'
