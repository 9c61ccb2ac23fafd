#!/usr/bin/env bash
# Benchmarks of the proved library beside the independent implementation, as Markdown: outside/bench.sh
set -euo pipefail
. "$(dirname "$0")/build.sh"
exec "$outside/target/release/bench"
