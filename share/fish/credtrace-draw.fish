# Completion of credtrace-draw's words in fish: put this file in ~/.config/fish/completions.
complete -c credtrace-draw -l from -x -d 'The first entry that is drawn, counted from 1'
complete -c credtrace-draw -l to -x -d 'The last entry that is drawn'
complete -c credtrace-draw -l report -r -d 'Of a script: its report, where it is not that of run'
complete -c credtrace-draw -l slots -d 'Show the slots from the beginning'
complete -c credtrace-draw -l holds -d 'Show holds, and what is prepared, from the beginning'
