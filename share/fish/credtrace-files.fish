# Completion of credtrace-files in fish: put this file in ~/.config/fish/completions.
complete -c credtrace-files -l all-mounts -d 'Look through other file systems that are mounted below too'
