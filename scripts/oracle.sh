# To be sourced by the scripts that run our program `calls` beside the Rust oracle: builds what is missing or not current, and sets
# `oracle`, the oracle's program, and `room`, a folder that goes when the script ends. It needs cargo, and rt.
cargo build --quiet --release --offline --manifest-path oracle/Cargo.toml
oracle=oracle/target/release/oracle
scripts/prove.sh program calls # what has not changed is not proved again; rt knows by the bytes
room=$(mktemp -d)
trap 'rm -rf "$room"' EXIT
