#!/usr/bin/env bash
# test.sh [-k WORDS]: all tests of the scripts of this folder and of tools/from_capture. IPFIXCOL is the program, if it
# isn't at crates/ipfixcol/out/ipfixcol; where there is none, tools/json_lines.py stands in for it. Further words go to
# pytest. Nothing stays in the checkout.
set -u
here=$(cd "$(dirname "$0")" && pwd)
missing=()
for module in pytest dask distributed matplotlib; do
    /usr/bin/python3 -c "import $module" 2> /dev/null || missing+=("python3-$module")
done
if [ ${#missing[@]} != 0 ]; then
    echo "to install first: apt-get install ${missing[*]}" >&2
    exit 1
fi
state() { git -C "$here" status --porcelain --ignored 2> /dev/null; }
before=$(state)
scratch=$(mktemp -d)
trap 'rm -rf "$scratch"' EXIT
export PYTHONDONTWRITEBYTECODE=1 MPLCONFIGDIR="$scratch/matplotlib" TMPDIR="$scratch"
/usr/bin/python3 -m pytest -q -rs -p no:cacheprovider --basetemp="$scratch/pytest" --rootdir="$here" "$here/tests" "$@"
status=$?
if [ "$(state)" != "$before" ]; then
    echo "the checkout has other files than before:" >&2
    state >&2
    exit 1
fi
exit "$status"
