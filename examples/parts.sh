#!/usr/bin/env bash
# Runs a capture in parts on one machine, several at a time, with the scripts for a cluster: cluster/submit finds the
# parts, ranges of the capture's bytes, and each is a task. The result is compared with the run in one piece: the same
# bytes at each port, and the sums of the reports.
#
#   examples/parts.sh [RECORDS [PARTS]]     by default 5000 and 8
#
# Needs a built pktkit (`make build`, or PKTKIT=PROGRAM) and Python 3.
set -euo pipefail

here=$(realpath "$(dirname "$0")")
PKTKIT=$(realpath -m "${PKTKIT:-$here/../crates/pktkit/out/pktkit}")
export PKTKIT
config=$here/router.toml
folder=$(mktemp -d)
trap 'rm -rf "$folder"' EXIT
cd "$folder"

# In one piece. The script that makes the capture prints the expected report.
"$here/make_traffic.py" whole.pcap "${1:-5000}" 7 > meant.report
"$PKTKIT" run --config "$config" --in whole.pcap --out whole > whole.report
diff meant.report whole.report

# In parts. Any batch system can replace xargs.
"$here/cluster/submit" --plan --config "$config" --out together --split "${2:-8}" whole.pcap > numbers
xargs -a numbers -P "$(nproc)" -n 1 together/parts/task run > /dev/null
together/parts/task sum
for port in 0 1; do
    together/parts/task join "$port"
    cmp "whole.$port.pcap" "together/$port.pcap"
done
diff whole.report together/report
cat together/report
echo "parts.sh: $(wc -l < numbers) parts give the captures and the report of one piece" >&2
