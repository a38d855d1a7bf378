#!/bin/sh
# One share on a host: share.sh LENGTH-RACKS-SHARE, in a folder with the program `calls` and the rule sheet `sheet`.
# Writes its report and the line `end`, or fails where the program gives none, so that another host is asked.
set -u
numbers=$(printf '%s' "$1" | tr - ' ')
report=$({ printf 'call length racks share\nshare %s\n\n' "$numbers" && cat sheet; } | ./calls) || exit 1
case $report in
"answer line"*) printf '%s\nend\n' "$report" ;;
*) exit 1 ;;
esac
