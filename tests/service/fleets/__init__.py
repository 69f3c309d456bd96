"""A fleet behind HAProxy, in peace and in trouble: its machines, its programs, sessions, and what becomes of them."""
