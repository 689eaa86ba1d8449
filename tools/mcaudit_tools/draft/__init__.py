"""mcaudit-draft (main.py)."""
