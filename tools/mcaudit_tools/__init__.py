"""The operators' tools of mcaudit: each mcaudit-NAME beside this package runs the module NAME of it."""
