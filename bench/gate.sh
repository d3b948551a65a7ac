#!/usr/bin/env bash
# Times the first command and the gate from nothing and writes docs/GATE.md: bench/gate.sh [first|gate]. Leave the machine idle beside it.
exec python3 "$(dirname "${BASH_SOURCE[0]}")/gate_times.py" "$@"
