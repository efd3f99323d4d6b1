"""The files that a log executes, opens or changes.

    listing      their owners, groups, modes and attributes: by a list, or by the file system
    history      what they were before the log changed them
    changes      which of them change within the log
    file_calls   the arguments of chmod(2), chown(2), setxattr(2), stat(2)
    refused_paths   which directory of a path refuses a call
    opens        opens of files, and questions about them, as lines of the script
"""
