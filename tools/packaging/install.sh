#!/bin/sh
# Installs what lies beside this file below a folder.
set -eu
unset CDPATH
umask 022
# (where ldconfig is, which not every PATH names)
PATH=$PATH:/usr/sbin:/sbin
usage="usage: install.sh PREFIX, as /usr/local"

say() {
    printf 'install.sh: %s\n' "$1"
}

# Ends with these words and this status.
fail() {
    say "$1" >&2
    exit "$2"
}

# Installs the files of a folder. Each takes its place by a rename, so that what runs keeps the file that it has.
put() {
    for it in "$here/$1"/*; do
        at=$to/$1/${it##*/} new=$to/$1/.fonnalich.new
        # (where this lies, all files may run, or none)
        case $1/${it##*/} in bin/* | lib/*.so.*) mode=755 ;; *) mode=644 ;; esac
        if [ -d "$it" ]; then
            put "$1/${it##*/}"
            continue
        fi
        mkdir -p "$to/$1"
        [ ! -d "$at" ] || fail "$at is a folder" 1
        rm -f "$new"
        { cp -P "$it" "$new" && { [ -L "$it" ] || chmod "$mode" "$new"; } && mv -f "$new" "$at"; } || {
            rm -f "$new"
            fail "$at isn't installed" 1
        }
    done
}

case ${1-} in
    -h | --help) echo "$usage" && exit ;;
    -*) fail "$1 is no PREFIX; a folder of that name is ./$1" 2 ;;
esac
if [ $# != 1 ] || [ -z "$1" ]; then
    echo "$usage" >&2
    exit 2
fi
[ -z "${DESTDIR-}" ] ||
    fail "DESTDIR isn't read: say install.sh \$DESTDIR/usr, since fonnalich.pc tells of the folder where it lies" 2
here=$(dirname "$(readlink -f "$0")")
for it in include/fonnalich.h lib/libfonnalich.a share/doc/fonnalich/PROVENANCE.json; do
    [ -f "$here/$it" ] || fail "there is no $it in $here, where it looks for what it installs" 1
done
if [ "$(uname -s)" != Linux ]; then
    say "this machine has $(uname -s), and the library is for Linux" >&2
elif [ "$(uname -m)" != "@PROCESSOR@" ]; then
    say "this machine's processor is $(uname -m), and the library is for @PROCESSOR@" >&2
elif [ "@PROCESSOR@" = x86_64 ] && [ -r /proc/cpuinfo ] && ! grep -qs '\bsse4_2\b' /proc/cpuinfo; then
    say "this machine lacks SSE 4.2, which the library needs" >&2
fi
mkdir -p "$1"
to=$(cd "$1" >/dev/null && pwd)
for part in bin include lib share; do
    if [ -d "$here/$part" ]; then put "$part"; fi
done
# (so that programs find the shared library)
[ "$(id -u)" != 0 ] || ldconfig 2>/dev/null || true
ldconfig -p 2>/dev/null | grep -qF "$to/lib/libfonnalich.so" ||
    say "set LD_LIBRARY_PATH=$to/lib, or have ldconfig look there: programs need the shared library"
[ ! -e "$to/bin/cookie-jar" ] || [ -e /usr/share/publicsuffix/public_suffix_list.dat ] ||
    say "have COOKIE_JAR_SUFFIXES name a list of public suffixes for cookie-jar, or install publicsuffix"
case $to in
    *[!A-Za-z0-9_/.+-]*) say "PREFIX has a blank or such: have eval read what pkg-config prints" ;;
esac
