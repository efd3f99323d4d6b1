# Completion of credtrace-fleet in fish: put this file in ~/.config/fish/completions.
complete -c credtrace-fleet -o ts -x -d 'What happened from then on'
complete -c credtrace-fleet -o te -x -d 'What happened up to then'
complete -c credtrace-fleet -l strict -d 'Status 1 also for calls missing and doubtful ones'
complete -c credtrace-fleet -l workers -x -d 'How many workers it starts'
complete -c credtrace-fleet -l scheduler -x -d 'The workers of this scheduler'
