"""What the calls of a log make of its tasks: ids, paths, descriptors and namespaces.

    tasks               tasks and processes by their pids
    pids                PID namespaces
    ids                 the ids of a task, as its calls leave them
    all_threads         id calls that all threads of a process make
    user_namespaces     user namespaces: their maps, and ids led through these
    namespace_entries   user namespaces that a log makes, and who enters them
    places              where paths lead: roots, folders, mounts
    paths               the files that a call names
    descriptors         what descriptors are of
    path_calls          calls that change where paths lead, and what descriptors are of
    outside             processes that aren't of the log, by their /proc/PID/status
    ptrace              looks into other tasks
    after_script_end    the log behind the line where its script ends
"""
