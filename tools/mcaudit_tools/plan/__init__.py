"""mcaudit-plan (main.py)."""
