"""Tests of the parts, run by examples/auditd/check. They aren't installed."""
