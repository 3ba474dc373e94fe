#!/bin/sh
# Measures the stack that calls of the library take: stack.c over libcapi.a, in the folder that KUTIMUQ_LIB names,
# default crates/capi/out of the repository. --depths prints every measure. All is bound before main: the loader
# takes no stack of a measured call.
set -eu

here=$(cd "$(dirname "$0")" && pwd)
root=$here/..
work=$(mktemp -d)
trap 'rm -rf "$work"' EXIT

gcc -std=c11 -Wall -Wextra -Werror -pedantic -Wl,-z,now -I "$root/include" -o "$work/stack" "$here/stack.c" \
    "${KUTIMUQ_LIB:-$root/crates/capi/out}/libcapi.a"
"$work/stack" "$@"
