# Completion of jj-core for fish.
complete -c jj-core -f
complete -c jj-core -n __fish_is_first_arg -a walk -d 'marked paths in a set, and directories to enter'
complete -c jj-core -n __fish_is_first_arg -a merge -d 'simplify or resolve conflicts'
complete -c jj-core -n __fish_is_first_arg -a graph -d 'orders, heads and merge bases'
complete -c jj-core -n __fish_is_first_arg -a hash -d 'BLAKE2b-512 digests'
complete -c jj-core -n __fish_is_first_arg -s h -l help -d 'print help'
complete -c jj-core -n __fish_is_first_arg -s V -l version -d 'print the version'
