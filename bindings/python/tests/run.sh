#!/bin/sh
# Tests the package with the shared object that `make` builds in bindings/c: installs it by pip, without a network, into a folder, and runs
# its tests from there, and then over an archive of RESULTS (200,000) messages. Where mypy is installed, its types are judged, and those of
# the examples in the documents. Needs Python 3 with pip, `cc`, and the program built: (cd crates/illcanon && rt run -- --version).
here=$(cd "$(dirname "$0")/.." && pwd) || exit 2
folder=$(mktemp -d) || exit 2
trap 'rm -rf "$folder"' EXIT
PIP_CONFIG_FILE=/dev/null python3 -m pip install --quiet --no-index --disable-pip-version-check --root-user-action ignore --target "$folder" "$here" || exit 1
cd "$folder" || exit 2
export PYTHONPATH="$folder" PYTHONDONTWRITEBYTECODE=1
status=0
if command -v mypy >/dev/null; then
    sed -n '/^```python$/,/^```$/{/^```/!p}' "$here/../../README.md" "$here/../../docs/GUIDE.md" >examples.py
    for files in "$here/illcanon" "$here/backend/wheel_of_illcanon.py" examples.py; do
        mypy --strict --cache-dir=/dev/null "$files" || status=1
    done
else
    echo "run.sh: no mypy, so the types are not judged"
fi
python3 "$here/tests/test_illcanon.py" || status=1
for profile in 2 module; do
    python3 "$here/tests/archive_results.py" "$(od -An -N2 -tu2 /dev/urandom | tr -d ' ')" "${RESULTS:-200000}" $profile || status=1
done
exit $status
