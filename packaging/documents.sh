#!/bin/sh
# Copies the documents and the examples of a package into a folder, each where the links of README.md lead.
# Usage: documents.sh FOLDER
set -eu
cd "$(dirname "$0")/.."
mkdir -p "$1/docs" "$1/bench"
cp README.md CHANGELOG.md CONTRIBUTING.md SECURITY.md LICENSE-MIT LICENSE-APACHE "$1"
cp docs/*.md docs/audit.schema.json "$1/docs"
cp bench/RESULTS.md bench/gate.md "$1/bench"
python3 tests/docs/proofs.py "$1/docs/PROOFS.md"
cp -R examples "$1"
find "$1" -type f -exec chmod 644 {} +
