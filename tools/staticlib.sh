#!/usr/bin/env bash
# Builds the archive that a C program links, target/staticlib/libpesilyum_hub.a: the exported call of crate pesilyum_hub.
set -euo pipefail
cd "$(dirname "$0")/.."
(cd crates/pesilyum_hub && rt lib)
mkdir -p target/staticlib
cp crates/pesilyum_hub/out/libpesilyum_hub.a target/staticlib/libpesilyum_hub.a
