#!/bin/sh
# Runs the tests of the package with an environment of its own, which is made where it is missing: numpy, Pillow and
# pytest come from Python's package index where it is reached, else from Debian's packages (apt-get, as root or by
# sudo). python/environment.sh says where it lies.
#
#   python/run-tests.sh [WORD ..]     WORDs are pytest's, as -k explain
#
# Status 0: each test passed, or was skipped for the reason that is told; 1: one failed; 2: no environment can be made.
set -u
here=$(cd "$(dirname "$0")" && pwd)
name=run-tests
# shellcheck source=python/environment.sh
. "$here/environment.sh"
environment=$cache/environment
needs='import sys, numpy, PIL, pytest; assert sys.version_info >= (3, 10)'

make_from_debian() {
    say "making $environment over /usr/bin/python3, with Debian's packages"
    is_usable /usr/bin/python3 "$needs" || from_debian python3-numpy python3-pil python3-pytest python3-venv || return 1
    rm -rf "$environment"
    /usr/bin/python3 -m venv --system-site-packages --without-pip "$environment"
}

make_environment() {
    make_from_index "$environment" "${here}[tests]" && is_usable "$environment/bin/python" "$needs" && return
    say "the package index can't be had ($log says why)"
    make_from_debian && is_usable "$environment/bin/python" "$needs"
}

if ! is_usable "$environment/bin/python" "$needs" && ! make_environment; then
    say "no environment could be made ($log says why): a Python from 3.10 on with numpy, Pillow and pytest is wanted." \
        "No test was run." >&2
    exit 2
fi
"$environment/bin/python" -B -m pytest -p no:cacheprovider -rs -c "$here/pyproject.toml" "$@" "$here/tests"
