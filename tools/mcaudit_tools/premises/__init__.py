"""What the tools say beside a verdict, and mcaudit-premises by itself (main.py)."""
