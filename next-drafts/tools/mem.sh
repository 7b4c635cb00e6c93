#!/bin/bash
# mem: every second the memory used (MB) and the files in /dev/shm (MB)
while :; do echo "$(date +%s) $(awk '/MemTotal/{t=$2}/MemAvailable/{a=$2}END{print int((t-a)/1024)}' /proc/meminfo) $(df -Pm /dev/shm | awk 'END{print $3}')"; sleep 1; done
