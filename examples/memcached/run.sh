#!/bin/sh
# Tries the server that `make` built: with clients that others wrote, with hostile ones, and three behind a proxy. Ends with 1 where one of
# them is not answered as it should be.
#
#     ./run.sh [--times] [--write]     --times: also beside Debian's memcached; --write: what passes and the times go into README.md
#
# HOW=asan or HOW=tsan takes the server that was built with sanitizers. What is not installed is told, and passed over.
set -eu
cd "$(dirname "$0")"
times=
write=
for word; do
    case $word in
    --times) times=yes ;;
    --write) write=--write ;;
    *) sed -n '2,7s/^# \{0,1\}//p' "$0"; exit 2 ;;
    esac
done

./clients.py $write
./hostile.py
./spread.py
if [ "$times" ]; then ./beside.py $write; fi
