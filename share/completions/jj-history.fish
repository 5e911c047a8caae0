# Completion of jj-history for fish: a database, and then a command.
complete -c jj-history -n 'not __fish_is_first_arg' -f
complete -c jj-history -n __fish_is_first_arg -F
set -l second 'test (count (commandline -opc)) -eq 2'
complete -c jj-history -n $second -a import -d 'read a stream of git fast-export'
complete -c jj-history -n $second -a log -d 'draw commits and their ancestors'
complete -c jj-history -n $second -a heads -d 'list the heads of all refs'
complete -c jj-history -n $second -a refs -d 'list the refs'
complete -c jj-history -n $second -a bases -d 'list merge bases'
complete -c jj-history -n $second -a show -d 'show a commit'
complete -c jj-history -n $second -a files -d 'list the files of a commit'
complete -c jj-history -n $second -a cat -d 'print a file of a commit'
complete -c jj-history -n $second -a diff -d 'compare two commits'
complete -c jj-history -n $second -a merge -d 'merge two commits'
complete -c jj-history -n $second -a check -d 'read all objects'
complete -c jj-history -n $second -a batch -d 'answer questions'
