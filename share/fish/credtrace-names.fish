# Completion of credtrace-names in fish: put this file in ~/.config/fish/completions.
complete -c credtrace-names -l to-script -d 'Write a script with names as one without'
