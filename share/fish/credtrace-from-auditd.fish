# Completion of credtrace-from-auditd in fish: put this file in ~/.config/fish/completions.
complete -c credtrace-from-auditd -o ts -x -d 'What happened from then on'
complete -c credtrace-from-auditd -o te -x -d 'What happened up to then'
complete -c credtrace-from-auditd -l pid -x -d 'This process and its descendants alone'
complete -c credtrace-from-auditd -l start -r -d 'What /proc said of the processes where the log begins'
complete -c credtrace-from-auditd -l scripts -r -d 'Write all scripts there'
complete -c credtrace-from-auditd -l table -r -d 'Write which record each line comes from into this file'
