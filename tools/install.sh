#!/usr/bin/env bash
# Installs the program, its manual page and its completions for bash and zsh.
#
#     tools/install.sh PREFIX            builds the program first where it isn't built
#     tools/install.sh PREFIX PROGRAM    installs this one
set -eu
top=$(dirname "$(dirname "$(readlink -f "${BASH_SOURCE[0]}")")")

if [ $# -lt 1 ] || [ $# -gt 2 ] || [ -z "$1" ]; then
    echo 'usage: tools/install.sh PREFIX [PROGRAM]' >&2
    exit 2
fi
prefix=$1
program=${2-$top/crates/axinet/out/axinet}
[ $# -eq 2 ] || "$top/axinet" --build

install -D -m 755 "$program" "$prefix/bin/axinet"
install -D -m 644 "$top/docs/axinet.1" "$prefix/share/man/man1/axinet.1"
install -D -m 644 "$top/tools/completions/axinet.bash" "$prefix/share/bash-completion/completions/axinet"
install -D -m 644 "$top/tools/completions/_axinet" "$prefix/share/zsh/site-functions/_axinet"

if ! command -v ldd > /dev/null; then
    linked='is there; without ldd it is not known whether it is static'
elif ldd "$prefix/bin/axinet" > /dev/null 2>&1; then
    linked='needs shared libraries, which ldd lists'
else
    linked='is static: it needs nothing else, and can be copied to any x86-64 Linux'
fi
echo "$prefix/bin/axinet ($(stat -c %s "$prefix/bin/axinet") bytes) $linked"
echo "manual page: man -l $prefix/share/man/man1/axinet.1"
echo 'completions: for bash (with the package bash-completion) and zsh, from the next shell on where the prefix is searched, as /usr/local is'
