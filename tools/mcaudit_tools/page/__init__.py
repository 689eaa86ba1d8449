"""mcaudit-page (main.py)."""
