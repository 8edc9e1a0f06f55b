#!/bin/sh
# Tries what is in this folder for real: a private cupsd, a printer application, a hot folder and two
# sshd, on loopback, the module for Python, and the callers in C with damaged jobs.
#
#   contrib/try.sh [hotfolder] [parallel] [cups] [pappl] [python] [c]    without a word: all
#
# Run it as root (only so does cupsd give its backends to another user). Needs the built program,
# crates/pclcheck/out/pclcheck or PCLCHECK, the library that `make lib` made, and of Debian 12 the
# packages
#
#   cups cups-client cups-ipp-utils libpappl-dev pkg-config gcc openssh-server openssh-client
#   parallel python3 procps
#
# It takes some minutes. Everything is kept in a folder that is removed at the end, and each
# process that was started is ended; the cupsd and the sshd of the system are not touched. The last
# line is 'N passed, M failed', and the exit status is 0 where M is 0.
# shellcheck disable=SC2034  # the parts use these variables
set -eu
here=$(cd "$(dirname "$0")" && pwd)
examples=$here/../examples
program=${PCLCHECK:-$here/../crates/pclcheck/out/pclcheck}
built=$here/../crates/pclcheck_c/out/built
unset PCLCHECK

need() {
    if [ ! -x "$1" ]; then
        echo "try.sh: $1 is missing: $2" >&2
        exit 2
    fi
}
needs() {                       # needs PART: what it is tried with
    need "$program" 'build it, or name it by PCLCHECK'
    need /usr/bin/python3 "Debian's package python3"
    need /usr/bin/pgrep "Debian's package procps"
    case $1 in
    cups | pappl)
        need /usr/bin/cc "Debian's package gcc"
        need /usr/sbin/cupsd "Debian's package cups"
        need /usr/bin/lp "Debian's package cups-client"
        need /usr/bin/ipptool "Debian's package cups-ipp-utils"
        need /usr/lib/cups/backend/socket "Debian's package cups"
        ;;
    parallel)
        need /usr/sbin/sshd "Debian's package openssh-server"
        need /usr/bin/ssh "Debian's package openssh-client"
        need /usr/bin/parallel "Debian's package parallel"
        ;;
    esac
    case $1 in
    c) need /usr/bin/cc "Debian's package gcc" ;;
    esac
    case $1 in
    c | cups | pappl | python) need "$built/libpclcheck.so.0" 'make build, and then make lib' ;;
    esac
}
if [ "$(id -u)" != 0 ]; then
    echo 'try.sh: run it as root' >&2
    exit 2
fi

work=$(mktemp -d /tmp/pclcheck-try.XXXXXX)
chmod 755 "$work"
mkdir "$work/home" "$work/bin" "$work/tmp"
cp "$program" "$work/bin/pclcheck"
HOME=$work/home
TMPDIR=$work/tmp
LC_ALL=C.UTF-8
export HOME TMPDIR LC_ALL
# 35 KB whose macros would carry out 25 million items.
{
    printf '\033&f1Y\033&f0X'
    head -c 10000 /dev/zero | tr '\0' '\r'
    printf '\033&f1X\033&f2Y\033&f0X\033&f1Y'
    yes "$(printf '\033&f2X')" | head -n 2500 | tr -d '\n'
    printf '\033&f1X\033&f2Y\033&f2X'
} >"$work/items.pcl"
passed=0
failed=0
started=                        # the processes to end
made=                           # a folder of the system that was not there

end() {                         # end PROCESS: with its exit status in $status
    kill "$1" 2>/dev/null || :
    status=0
    wait "$1" 2>/dev/null || status=$?
    started=$(printf ' %s ' "$started" | sed "s/ $1 / /")
}
stop_all() { for process in $started; do end "$process"; done; }
clean() {
    stop_all
    rm -rf "$work"
    if [ -n "$made" ]; then rmdir "$made" || :; fi
}
early() {
    clean
    echo "try.sh: ended before its end, with $passed passed, $failed failed" >&2
}
trap early EXIT
trap 'exit 2' HUP INT TERM

# say WHAT COMMAND..: one line for what was tried, and whether the command saw it.
say() {
    what=$1
    shift
    if "$@" >"$work/said" 2>&1; then
        passed=$((passed + 1))
        echo "passed: $what"
    else
        failed=$((failed + 1))
        echo "FAILED: $what"
        head -n 20 "$work/said" | sed 's/^/    /'
    fi
}

# soon COMMAND..: whether it succeeds within ten seconds.
soon() {
    turns=0
    until "$@" 2>/dev/null; do
        turns=$((turns + 1))
        if [ $turns -gt 100 ]; then return 1; fi
        sleep 0.1
    done
}

has() {                         # has TEXT FILE: the file has the text
    grep -qF -- "$1" "$2" || { cat "$2"; return 1; }
}
is_equal() {                    # is_equal A B: two words
    [ "$1" = "$2" ] || { echo "$1, due $2"; return 1; }
}
build_caller() {                # build_caller NAME SOURCE [WORDS..]: a caller of the library, in C
    caller=$work/bin/$1
    source=$2
    shift 2
    # shellcheck disable=SC2086  # CFLAGS are words
    cc -std=c11 -Wall -Wextra -Werror -O2 -D_FORTIFY_SOURCE=2 -fstack-protector-strong ${CFLAGS-} \
        -I "$here/../include" -I "$here/c" "$source" "$here/c/gate.c" "$built/libpclcheck.a" "$@" \
        -o "$caller"
}
is_gone() { [ ! -e "/proc/$1" ]; }
free_port() {
    python3 -c 'if True:
        import socket
        print(socket.create_server(("127.0.0.1", 0)).getsockname()[1])'
}
is_open() {                     # is_open PORT: something listens there
    python3 -c 'if True:
        import socket, sys
        socket.create_connection(("127.0.0.1", int(sys.argv[1])))' "$1"
}

# shellcheck source=/dev/null
. "$here/private_cups.sh"
[ $# -gt 0 ] || set -- hotfolder parallel cups pappl python c
for part; do
    case $part in
    c | cups | hotfolder | parallel | pappl | python) ;;
    *)
        echo "try.sh: there is no part $part" >&2
        exit 2
        ;;
    esac
    needs "$part"
    echo "-- $part"
    # shellcheck source=/dev/null
    . "$here/$part/try.sh"
    stop_all
done

is_nothing_running() { ! pgrep -af -- "$work"; }
say 'no process is left' soon is_nothing_running
say 'no temporary file is left' [ -z "$(ls -A "$work/tmp")" ]
trap - EXIT
clean
if [ -e "$work" ] || { [ -n "$made" ] && [ -e "$made" ]; }; then
    failed=$((failed + 1))
    echo "FAILED: $work is left"
fi
echo "$passed passed, $failed failed"
[ $failed -eq 0 ]
