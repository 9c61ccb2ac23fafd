# Builds the proved library, and with it the programs here. Read by differ.sh and bench.sh.
outside=$(cd "$(dirname "${BASH_SOURCE[0]}")" && pwd)

need() {
    command -v "$1" > /dev/null && return
    echo "$1 is missing: $2" >&2
    exit 2
}

need rt "install the Rattle toolchain, which README.md names."
need cargo "install Rust 1.80 or later; nothing else is fetched."

# what is built is told on standard error, so that standard output holds the results alone
(cd "$outside/../crates/skopelyne" && rt lib) >&2
(cd "$outside" && cargo build --release --offline --quiet --target-dir "$outside/target") >&2
