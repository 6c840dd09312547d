#!/usr/bin/env bash
# Builds the Rust side under target/ and prints where the program lies.
set -euo pipefail
here=$(cd "$(dirname "${BASH_SOURCE[0]}")" && pwd)
target=$(dirname "$here")/target/oracle
if [ -n "${RENDERDAG_SRC:-}" ]; then
    RENDERDAG_SRC=$(realpath "$RENDERDAG_SRC")
    export RENDERDAG_SRC
fi
cargo build --release --offline --locked --quiet --manifest-path "$here/Cargo.toml" --target-dir "$target" >&2
echo "$target/release/oracle"
