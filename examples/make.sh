#!/bin/sh
# Makes the plan files, answer files and pictures again from the texts and the records.
set -eu
cd "$(dirname "$0")"
cargo build --quiet --offline --release --manifest-path ../rust/Cargo.toml --target-dir ../rust/target -p command
yeldaski=../rust/target/release/yeldaski
for name in belt pad board; do
    "$yeldaski" make "$name.txt" -o "$name.plan"
    "$yeldaski" run "$name.plan" -o "$name.answer"
    "$yeldaski" plot "$name.plan" --answer "$name.answer" --text "$name.txt" -o "$name.svg"
done
