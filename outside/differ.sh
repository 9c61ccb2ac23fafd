#!/usr/bin/env bash
# Differential runs of the proved library against the independent implementation: outside/differ.sh [COUNT [SEED]]
set -euo pipefail
. "$(dirname "$0")/build.sh"
exec "$outside/target/release/differ" "$@"
