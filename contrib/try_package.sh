#!/bin/sh
# Tries Debian's packages of pclcheck in a clean Debian 12.
#
#     contrib/try_package.sh [SYSTEM]
#
# Makes the packages, lets lintian judge them, and then installs, uses and removes them in a system
# of their own: in one that debootstrap makes (some minutes, 500 MB), or in a copy of the folder
# SYSTEM, which `debootstrap --variant=minbase --include=man-db,gcc,libc6-dev,pkg-config bookworm
# SYSTEM` made. Needs root, a tree that is a commit, the built program and library, and from Debian
# make, git, gcc, dpkg-dev, binutils, lintian and debootstrap. Prints what is tried, and at last
# 'N passed, M failed'. The exit status is 0 where M is 0, else 1, and 2 where something is missing.
# All is done in a temporary folder, which goes.
set -eu
export LC_ALL=C

missing()
{
    echo "try_package: $1" >&2
    exit 2
}

[ "$(id -u)" -eq 0 ] || missing 'has to be run by root, who may chroot'
for tool in make git cc dpkg-shlibdeps strip lintian debootstrap; do
    command -v "$tool" > /dev/null || missing "there is no $tool; its head names packages"
done
cd "$(dirname "$0")/.."
made=${1:-}
folder=$(mktemp -d)
trap 'rm -rf --one-file-system "$folder"' EXIT
trap 'exit 1' HUP INT TERM
system=$folder/system
passed=0
failed=0

# Runs the words behind the first one, which says what is tried.
try()
{
    told=$1
    shift
    if "$@" > "$folder/told" 2>&1; then
        passed=$((passed + 1))
        echo "passed: $told"
    else
        failed=$((failed + 1))
        echo "FAILED: $told"
        sed 's/^/    /' "$folder/told"
    fi
}

inside()
{
    chroot "$system" env PATH=/usr/sbin:/usr/bin:/sbin:/bin HOME=/root "$@"
}

# Whether the first line that a command writes in the system is this one.
writes()
{
    line=$1
    shift
    inside "$@" > "$folder/came"
    head -n 1 "$folder/came"
    [ "$(head -n 1 "$folder/came")" = "$line" ]
}

# Whether a manual page is shown with these headings and without a complaint.
shows()
{
    page=$1
    shift
    # shellcheck disable=SC2086  # a section and a name are words
    inside man --warnings $page > "$folder/page" 2> "$folder/complaints"
    cat "$folder/complaints"
    [ ! -s "$folder/complaints" ] || return 1
    for heading in "$@"; do
        grep -qx "$heading" "$folder/page" || { echo "there is no $heading"; return 1; }
    done
}

# Each file of the system, but logs, caches and what dpkg keeps of its own last state.
files()
{
    find "$system" -xdev ! -path "$system/var/log/*" ! -path "$system/var/cache/*" \
        ! -path "$system/var/lib/dpkg/*-old" | sort > "$1"
}

# dpkg tells of files that are changed or gone, and its status is 0 all the same.
is_whole()
{
    # shellcheck disable=SC2086  # the packages are words
    inside dpkg --verify $packages > "$folder/came"
    cat "$folder/came"
    [ ! -s "$folder/came" ]
}

profiles_are_those_of_the_program()
{
    for text in "$system"/usr/share/pclcheck/profiles/*.profile; do
        model=$(basename "$text" .profile)
        inside pclcheck profile new "$model" | cmp - "$text" || return 1
    done
}

nothing_is_left()
{
    files "$folder/after"
    diff "$folder/before" "$folder/after"
}

make -s deb > "$folder/told" 2>&1 || missing "make deb: $(head -n 1 "$folder/told")"
packages='pclcheck libpclcheck0 libpclcheck-dev'
made_as=$(dpkg-parsechangelog -S Version)_$(dpkg --print-architecture).deb
if [ -n "$made" ]; then
    cp -a "$made" "$system"
else
    debootstrap --variant=minbase --include=man-db,gcc,libc6-dev,pkg-config bookworm "$system" \
        > "$folder/told" 2>&1 || missing "debootstrap: $(tail -n 1 "$folder/told")"
fi
for package in $packages; do cp "dist/${package}_$made_as" "$system/root/$package.deb"; done
examples=/usr/share/doc/pclcheck/examples
build='cc -O2 -D_FORTIFY_SOURCE=2 -fstack-protector-strong -Wall -Werror -o /root/check'
build="$build /usr/share/doc/libpclcheck-dev/examples/check.c"
files "$folder/before"

for package in $packages; do
    try "lintian finds no error in $package" \
        lintian --allow-root --fail-on error "dist/${package}_$made_as"
    sed -n 's/^W/    W/p' "$folder/told"
done
try 'the packages install' inside sh -c 'dpkg --install /root/*.deb'
try 'their files are as they were packed' is_whole
try 'the program tells its version' inside pclcheck --version
try 'man pclcheck shows' shows pclcheck NAME SYNOPSIS VERDICTS FINDINGS 'EXIT STATUS' EXAMPLES
try 'man pclcheck-profile shows' shows pclcheck-profile NAME KEYS FAULTS EXAMPLES
try 'an example passes' writes 'PASS pages=2 marks=414' pclcheck check "$examples/letter.pcl" \
    /usr/share/pclcheck/profiles/hp-laserjet-4250.profile
try 'the fleet of the examples is read' writes "PASS pages=1 marks=268 $examples/invoice.pcl" \
    pclcheck check -f "$examples/shop.fleet" "$examples/invoice.pcl"
try 'profiles are those of the program' profiles_are_those_of_the_program
try 'the completion for bash loads' writes 'complete -F _pclcheck pclcheck' \
    bash -c '. /usr/share/bash-completion/completions/pclcheck && complete -p pclcheck'
try 'man 3 pclcheck shows' shows '3 pclcheck' NAME SYNOPSIS 'RETURN VALUE' ATTRIBUTES
try 'a program is built against the library' inside sh -c "$build \$(pkg-config --libs pclcheck)"
try 'it needs libpclcheck.so.0' inside sh -c 'ldd /root/check | grep "libpclcheck.so.0 => /"'
try 'it runs' writes "$examples/letter.pcl: each printer prints this job (pages=2 marks=414)" \
    /root/check "$examples/letter.pcl" /usr/share/pclcheck/profiles/hp-laserjet-4250.profile
try 'a program is built with the library in it' inside sh -c "$build -l:libpclcheck.a"
try 'it runs' writes "$examples/letter.pcl: each printer prints this job (pages=2 marks=414)" \
    /root/check "$examples/letter.pcl" /usr/share/pclcheck/profiles/hp-laserjet-4250.profile
rm -f "$system/root/check"
# shellcheck disable=SC2086  # the packages are words
try 'the packages are removed' inside dpkg --purge $packages
try 'nothing of them is left' nothing_is_left
echo "$passed passed, $failed failed"
[ "$failed" -eq 0 ]
