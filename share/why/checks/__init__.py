"""What `check` asks of credtrace-why."""
