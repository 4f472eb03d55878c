#!/bin/sh
# Looks over pages, Python, shell and JavaScript, and says what isn't as CONTRIBUTING.md wants it.
#
#   tools/lint.sh [--install]
#
# A check whose program isn't there is skipped, and the last line names it. With --install what is missing is got first:
# from Python's package index into an environment of its own (in the user's cache), else as Debian's packages.
#
# Status 0: no check failed; 1: one did; 2: wrong words.
set -u
cd "$(dirname "$0")/.." || exit 2
name=lint
# shellcheck source=python/environment.sh
. python/environment.sh
environment=$cache/lint
# the versions by which the sources are looked over: those of Debian 12
versions='flake8==5.0.4 black==23.1.0 mypy==1.0.1 numpy==1.24.2 Pillow==9.4.0 types-Pillow==9.4.0 pytest==7.2.1'
packages='flake8 black mypy python3-numpy python3-pil python3-pytest'
passed=0
failed=
skipped=

usage() {
    sed -n '2,9s/^# \{0,1\}//p' "$0"
}

# python_with MODULE ..: a Python that has these modules
python_with() {
    modules=$(echo "$*" | sed 's/ /, /g')
    for it in "$environment/bin/python" /usr/bin/python3 python3; do
        found=$(command -v "$it") && "$found" -c "import $modules" 2>/dev/null && echo "$found" && return
    done
    return 1
}

# (the words of `versions` and `packages` are words)
# shellcheck disable=SC2086
get_missing() {
    python_with flake8 black mypy numpy PIL pytest >/dev/null ||
        make_from_index "$environment" $versions || from_debian $packages
    command -v shellcheck >/dev/null || from_debian shellcheck
    if command -v node >/dev/null; then command -v tsc >/dev/null || from_debian node-typescript; fi
}

# check NAME COMMAND ..: runs a check
check() {
    of=$1
    shift
    if "$@"; then passed=$((passed + 1)); else failed="$failed${failed:+, }$of"; fi
}

skip() {
    skipped="$skipped${skipped:+, }$1"
}

case ${1-} in
"") ;;
--install) get_missing ;;
-h | --help) usage && exit ;;
*) usage >&2 && exit 2 ;;
esac

tools_files=$(find tools bench -name '*.py')
package_files=$(find python/src python/tests python/examples -name '*.py')
shell_files=$(find tools python -name '*.sh')

# (file names here have no spaces)
# shellcheck disable=SC2086
look_over() {
    check pages python3 tools/pages.py
    if command -v ruff >/dev/null; then
        check ruff ruff check --quiet .
    elif python=$(python_with flake8); then
        # (E203 is the space before a colon in slices, as black writes it)
        check flake8 "$python" -m flake8 --max-line-length 120 --extend-ignore E203 \
            --per-file-ignores bench/scenes.py:E402 $tools_files $package_files
        skip "ruff (flake8 looked in its place)"
    else
        skip ruff
    fi
    if python=$(python_with black); then
        check black "$python" -m black --quiet --check --diff $tools_files
        check "black of the package" "$python" -m black --quiet --check --diff $package_files
    else
        skip black
    fi
    if python=$(python_with mypy numpy PIL pytest); then
        check mypy "$python" -m mypy --cache-dir "$cache/mypy" $tools_files
        check "mypy of the package" "$python" -m mypy --cache-dir "$cache/mypy" python/src/yuzuratchet python/tests
    else
        skip mypy
    fi
    if command -v shellcheck >/dev/null; then check shellcheck shellcheck -x $shell_files .ci/run; else skip shellcheck; fi
    if command -v node >/dev/null && command -v tsc >/dev/null; then
        for project in web/jsconfig*.json; do check "tsc ($project)" tsc --project "$project"; done
    else
        skip "tsc"
    fi
}

look_over
say "$passed checks passed${failed:+; failed: $failed}${skipped:+; skipped: $skipped}"
[ -z "$failed" ]
