"""mcaudit-monitor (main.py)."""
