#!/bin/sh
# Puts NetCov under a folder: the program, its manual page, the documents, the examples, the page, and what bash completes.
#
#     ./install.sh [PREFIX]
#
# PREFIX is /usr/local without a word. It needs nothing but a shell, mkdir and cp.
case ${1-} in
    -*) echo "usage: $0 [PREFIX]" >&2; exit 2 ;;
esac
[ $# -le 1 ] || { echo "usage: $0 [PREFIX]" >&2; exit 2; }
prefix=${1:-/usr/local}
case $prefix in
    /*) ;;
    *) prefix=$PWD/$prefix ;;
esac
set -e
cd "$(dirname "$0")"
share=$prefix/share
mkdir -p "$prefix/bin" "$share/man/man1" "$share/netcov" "$share/bash-completion/completions"
cp netcov "$prefix/bin/netcov"
cp docs/netcov.1 "$share/man/man1/netcov.1"
cp netcov.bash "$share/bash-completion/completions/netcov"
cp ./*.md VERSION PROOF "$share/netcov/"
cp -R docs examples viewer oracle "$share/netcov/"
echo "netcov $(cat VERSION): the program is in $prefix/bin, documents, examples and the page are in $share/netcov"
