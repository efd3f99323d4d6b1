# Completion of credtrace's words in fish: put this file in ~/.config/fish/completions.
complete -c credtrace -f
set -l first 'test (count (commandline -opc)) -eq 1'
complete -c credtrace -n $first -a run -d 'Read a script and write its report'
complete -c credtrace -n $first -a lanes -d 'Read a script, run its lanes as threads and write the report'
complete -c credtrace -n $first -a audit -d 'Say whether a report is its script\'s'
complete -c credtrace -n $first -a gen -d 'Run a script of N calls that it makes itself and sum up its report'
complete -c credtrace -n $first -a decode -d 'Say what the bytes of a capability attribute say'
complete -c credtrace -n $first -a encode -d 'Say which bytes a text of file capabilities is'
complete -c credtrace -n $first -a capdata -d 'Say what the bytes of a record of capset(2) say'
