#!/usr/bin/env bash
# Builds the command with the static library, which is there already, and puts it where it is run from: target/canceller.
set -euo pipefail
cd "$(dirname "$0")/.."

cargo build --offline --release --manifest-path command/Cargo.toml
cp command/target/release/canceller target/canceller.new
mv target/canceller.new target/canceller
