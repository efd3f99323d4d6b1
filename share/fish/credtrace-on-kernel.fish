# Completion of credtrace-on-kernel's words in fish: put this file in ~/.config/fish/completions.
complete -c credtrace-on-kernel -l via -x -d 'The command that runs the driver, as a sandbox'
complete -c credtrace-on-kernel -l seconds -x -d 'How long the script may take'
complete -c credtrace-on-kernel -l ids -x -d 'Map these ids alone, FIRST-LAST,..'
