#!/bin/sh
# All tests: what looks over sources and pages, the package's tests, then the gate, which takes every proof, wrong body,
# test and stored run from nothing, and then what stands above it, over what it built: the C library, Python over it,
# the page, the package once more, short comparisons of `check`, of `explain`, of pixels' histories and of calls with the
# device, and other devices beside it. The library and the files of a release are built beside the gate, from clones,
# since the gate holds the folders of the crates; other devices and the comparisons run side by side.
#
# The last line is the gate's. The line before it names what failed, and what was skipped for want of a program. The
# status is the gate's where that isn't 0, and else 1 where another part failed.
cd "$(dirname "$0")/.." || exit 2
room=$(mktemp -d) || exit 2
trap 'rm -rf "$room"' EXIT
failed=

# part NAME COMMAND ..: runs a part, and keeps what it prints and whether it failed
part() {
    part=$1
    shift
    printf '\n== %s\n' "$part"
    { "$@" 2>&1; echo $? >"$room/status"; } | tee "$room/$part"
    [ "$(cat "$room/status")" -eq 0 ] || failed="$failed${failed:+, }$part"
}

# beside NAME COMMAND ..: starts a part beside what follows
beside() {
    beside=$1
    shift
    { "$@" >"$room/$beside" 2>&1; echo $? >"$room/$beside.status"; } &
    echo $! >"$room/$beside.pid"
}

# ended NAME ..: waits for such parts in turn, and prints what each printed and keeps whether it failed
ended() {
    for name; do
        wait "$(cat "$room/$name.pid")"
        printf '\n== %s\n' "$name"
        cat "$room/$name"
        [ "$(cat "$room/$name.status")" = 0 ] || failed="$failed${failed:+, }$name"
    done
}

trusted() {
    tools/trusted.py --check
}

# the program, over what the gate proved
build_program() {
    [ -x crates/tiledraw/out/tiledraw ] ||
        (script=$PWD/crates/gallery/data/fan.txt && cd crates/tiledraw && rt run -- "$script" "$room/fan.tga")
}

# the package's tests once more, with the program and the library
package_again() {
    built=$room/prefix/lib/libyuzuratchet.so
    if [ -e "$built" ]; then
        YUZURATCHET_LIBRARY=$built python/run-tests.sh -q
    else
        python/run-tests.sh -q
    fi
}

# by_library TOOL WORD ..: a comparison with the library, by the environment of the package's tests, which has numpy
by_library() (
    name=$1
    shift
    # shellcheck source=python/environment.sh
    . python/environment.sh
    python=$cache/environment/bin/python
    [ -e "$room/prefix/lib/libyuzuratchet.so" ] || { echo "skipped $name: the library isn't built" && return; }
    [ -x "$python" ] || { echo "skipped $name: the environment of the package's tests isn't kept" && return; }
    YUZURATCHET_LIBRARY=$room/prefix/lib/libyuzuratchet.so "$python" -B "tools/$name.py" "$@"
)

# get_for_release PACKAGE ..: what a release is built and tested by, from Debian's packages
get_for_release() (
    name=release
    # shellcheck source=python/environment.sh
    . python/environment.sh
    from_debian "$@"
)

# the C library, whose crates `rt lib` proves once more in its own way
build_library() {
    git clone --quiet . "$room/library-clone" && cd "$room/library-clone" && tools/install_library.py "$room/prefix"
}

# the files of a release, of a build with checks that says it isn't proved
release() {
    command -v qemu-x86_64 >/dev/null || get_for_release qemu-user || true
    # (jeprof comes with the memory that is linked in)
    for tool in musl-gcc jeprof shtab argparse-manpage dpkg-deb; do
        command -v "$tool" >/dev/null || get_for_release musl-tools libjemalloc-dev python3-shtab \
            python3-argparse-manpage python3-setuptools python3-wheel || true
        command -v "$tool" >/dev/null || { echo "skipped release: the command $tool is missing" && return; }
    done
    git clone --quiet . "$room/clone" && cd "$room/clone" || return
    tools/make_release.py --checked "$room/dist" && tools/test_release.py "$room/dist"
}

# what was skipped, a line each
skipped() {
    sed -n 's/^lint: .*; skipped: //p' "$room/lint"
    for run in library release explained histories calls devices; do
        [ ! -e "$room/$run" ] || sed -n 's/^skipped //p' "$room/$run"
    done
    for run in package-again package; do
        [ -e "$room/$run" ] || continue
        awk '/^SKIPPED / { count = substr($2, 2) + 0; sub(/^SKIPPED [^ ]+ [^ ]+ /, ""); of[$0] += count }
             END { for (why in of) print of[why] " tests of the package (" why ")" }' "$room/$run"
        break
    done
}

joined() {
    awk 'NR > 1 { printf "; " } { printf "%s", $0 }'
}

part lint tools/lint.sh --install
part trusted trusted
part wrong-bodies tools/wrong_bodies.py --check
part package python/run-tests.sh -q

beside release release
beside library-built build_library
# (told how many jobs there are, the gate starts the longest proof of all, that of the tests, as soon as it can: else it
# waits for memory that it doesn't take)
printf '\n== gate\n'
{ RT_JOBS=${RT_JOBS:-$(nproc)} rt ci; echo $? >"$room/gate"; } | tee "$room/said"
gate=$(cat "$room/gate")

[ "$gate" -ne 0 ] || part program build_program
ended library-built
[ ! -e "$room/prefix/lib/libyuzuratchet.a" ] || part library tools/test_library.py --prefix "$room/prefix"
if [ -x crates/tiledraw/out/tiledraw ]; then
    # (that the gate passed is kept for the release itself)
    [ "$gate" -ne 0 ] || tools/make_release.py --gate "$room/said" || true
    part package-again package_again
    beside devices tools/test_devices.py
    beside checked tools/compare_checked.py 1000
    beside explained by_library compare_explained 100
    beside histories by_library compare_histories 100
    beside calls by_library compare_calls 400
    ended checked explained histories calls devices
else
    failed="$failed${failed:+, }program (so the package's tests, the comparisons and test_devices weren't run over it)"
fi
ended release

printf '\nfailed: %s; skipped: %s\n' "${failed:-nothing}" "$(skipped | joined)"
tail -n 1 "$room/said"
[ "$gate" -eq 0 ] || exit "$gate"
[ -z "$failed" ]
