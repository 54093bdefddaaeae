#!/usr/bin/env bash
# Proves the crate `firmware_c`, makes the static library target/staticlib/libfirmware.a of it, and builds this example against it:
# target/firmware-example. The kit has libraries in C to link beside a static library; this one calls none of them and does without.
set -eu
cd "$(dirname "${BASH_SOURCE[0]}")/../.."
(cd crates/firmware_c && rt lib)
mkdir -p target/staticlib
cp crates/firmware_c/out/libfirmware_c.a target/staticlib/libfirmware.a
cc -std=c99 -Wall -Wextra -O2 -I include -o target/firmware-example examples/firmware/main.c target/staticlib/libfirmware.a
