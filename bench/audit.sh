#!/bin/sh
# Has the program audit a report: frames a trace and its report as one input, the length of the trace in front.
#
#     bench/audit.sh TRACE REPORT [--shards N] [--pages N]
#
# The options are those of the run that wrote the report. It writes `legal`, or `illegal line K` with the first line that is wrong,
# or why there is nothing to audit, and exits as the program does.
set -eu
trace=$1
report=$2
shift 2
program=$(dirname "$0")/../shardcache
{ printf '%d\n' "$(wc -c < "$trace")"; cat "$trace" "$report"; } | "$program" audit "$@"
