#!/bin/sh
# Prints blink.pc, for the headers in PREFIX/include and the libraries in PREFIX/FOLDER, which may begin with ${pcfiledir}. It names the
# archive, so that a program which is linked by it starts wherever it stands; or with the third word the shared library, as a system has it.
#
#     pc.sh PREFIX FOLDER [shared]
set -eu
here=$(cd "$(dirname "$0")" && pwd)
version=$(sh "$here/version.sh")
printf 'prefix=%s\nlibdir=${prefix}/%s\n' "$1" "$2"
if [ "${3-}" = shared ]; then
    sed "s/@version@/$version/; /^#/d; s|/blink-static||" "$here/blink.pc.in"
else
    sed "s/@version@/$version/" "$here/blink.pc.in"
fi
