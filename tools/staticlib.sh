#!/bin/sh
# Proves and builds a library's exports for C and Rust, and puts them where C callers find them: tools/staticlib.sh c_interface
# writes target/staticlib/libc_interface.a from the crate c_interface_c.
set -eu
cd "$(dirname "$0")/.."
if [ $# -ne 1 ] || [ ! -d "crates/$1_c" ]; then
    echo "tools/staticlib.sh NAME: NAME is a library with exports, c_interface or c_count" >&2
    exit 2
fi
(cd "crates/$1_c" && rt lib >&2)
mkdir -p target/staticlib
cp "crates/$1_c/out/lib$1_c.a" "target/staticlib/lib$1.a"
