# shellcheck shell=sh
# Makes environments of Python's own, of which one runs the package's tests and one looks over the sources. It is read
# by run-tests.sh and tools/lint.sh, which set `name` (what they are called in what is printed).
#
# An environment lies in the user's cache ($XDG_CACHE_HOME or ~/.cache, yuzuratchet), and in a folder that is removed
# at the end where nothing can be written there. It isn't kept in the repository: it has links, and the gate takes none.

cache=${XDG_CACHE_HOME:-${HOME:-}/.cache}/yuzuratchet
if ! { mkdir -p "$cache" && [ -w "$cache" ]; } 2>/dev/null; then
    cache=$(mktemp -d) || exit 2
    trap 'rm -rf "$cache"' EXIT
fi
log=$cache/pip.log

say() {
    # shellcheck disable=SC2154 # (who reads this file has set it)
    printf '%s: %s\n' "$name" "$*"
}

# is_usable PYTHON NEEDS: this Python can run these lines
is_usable() {
    [ -x "$1" ] && "$1" -c "$2" 2>/dev/null
}

# make_from_index ENVIRONMENT WORDS ..: a fresh environment with what pip installs by these words
make_from_index() {
    python3 -c 'import sys; assert sys.version_info >= (3, 10)' 2>/dev/null || return 1
    environment=$1
    shift
    say "making $environment from the package index"
    rm -rf "$environment"
    python3 -m venv "$environment" || return 1
    # (by the environment, so that it holds for what pip starts too)
    PIP_TIMEOUT=10 PIP_RETRIES=0 PIP_DISABLE_PIP_VERSION_CHECK=1 \
        "$environment/bin/python" -m pip install --quiet "$@" >"$log" 2>&1
}

as_root() {
    if [ "$(id -u)" -eq 0 ]; then "$@"; else sudo -n "$@"; fi
}

install_from_debian() {
    as_root env DEBIAN_FRONTEND=noninteractive apt-get install -y -qq "$@" >>"$log" 2>&1
}

# from_debian PACKAGE ..: installs Debian's packages, as root or by sudo
from_debian() {
    command -v apt-get >/dev/null || return 1
    say "installing $*"
    install_from_debian "$@" || { as_root apt-get update -qq >>"$log" 2>&1 && install_from_debian "$@"; }
}
