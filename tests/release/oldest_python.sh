#!/usr/bin/env bash
# Runs the tools, their tests, and the commands that the pages show of them, by the oldest Python that is promised.
#
#     tests/release/oldest_python.sh [PYTHON]      PYTHON is python3.9 unless it is given
#
# pytest itself runs by the system's Python, and the tools by the one that is tried.
set -euo pipefail
cd "$(dirname "$0")/../.."
folder=$(mktemp -d)
trap 'rm -rf "$folder"' EXIT
ln -s "$(command -v "${1:-python3.9}")" "$folder/python3"
export PATH=$folder:$PATH PYTHONDONTWRITEBYTECODE=1
python3 -c 'import sys; sys.exit(sys.version_info[:2] != (3, 9) and "oldest-python: this is Python " + sys.version)'
/usr/bin/python3 -m pytest -q tests/tools tests/docs/test_shown.py
echo "oldest-python: all by $(python3 --version)"
