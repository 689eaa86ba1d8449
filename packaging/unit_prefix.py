"""Writes the prefix of an installation into a unit of systemd. Usage: unit_prefix.py UNIT PREFIX"""
import sys

path, prefix = sys.argv[1:]
escaped = "".join(f"\\x{ord(it):02x}" if it in " \t\"'\\$%" else it for it in f"{prefix}/bin/")
with open(path, encoding="utf-8") as file:
    text = file.read()
with open(path, "w", encoding="utf-8") as file:
    file.write(text.replace("/usr/local/bin/", escaped))
