# Completion of credtrace-compare in fish: put this file in ~/.config/fish/completions.
complete -c credtrace-compare -l why -d 'Say of each call that the report refuses why it does'
complete -c credtrace-compare -l files -r -d 'A list of the files that the log executes or opens'
complete -c credtrace-compare -l start -r -d 'The status where the log begins, or a folder of each thread\'s'
complete -c credtrace-compare -l task -x -d 'This process of the log and its children alone'
complete -c credtrace-compare -l folder -r -d 'The folder where the log begins'
complete -c credtrace-compare -l root -r -d 'The root where the log begins'
complete -c credtrace-compare -l proc -r -d 'A folder like /proc, of processes that aren\'t of the log'
