# shellcheck shell=bash
# Sourced by each tool in bash: `--help` prints the comment at the head of the tool.
case ${1:-} in
--help | -h)
    sed -n '2,$ { /^#/!q; s/^# \{0,1\}//; p }' "$0"
    exit 0
    ;;
esac
