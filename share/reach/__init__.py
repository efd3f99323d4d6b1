"""credtrace-reach: whether a task can get an id or a capability (back), by any calls.

The program answers each call that is tried: in scripts of forks, many to a script. No rule of Linux
stands here but those of the bounds (`bounds`), which `share/reach/check` compares with the search.

- `state`: what is told of a task. `goals`: what is asked for.
- `start`: the script up to the line, the threads of the process, the files; `declared` adds files.
- `asking`: runs of the program. `order`: of two states the larger one. `moves`: the calls.
- `search`, `witness`: the search by levels, and the calls that lead there, without those that
  aren't needed.
- `bounds`, `growth`, `tight`: what no call leads beyond, and when that is a law's.
- `answer`, `told`, `rows`, `as_json`: what is said. `command`: the command.
- `graph`, `drawing`: the states that one call leads through. `installed`: a system's own files.
"""
