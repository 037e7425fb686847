# Where wrong programs are tried, for the scripts that read this file by `. "$root/checks/memory.sh"`; they remove the folder at their end.
# shellcheck shell=sh

# For each wrong program rt lays out anew what is proved of its crate, up to some thousand files and 300 MB.
# Says a folder in memory where there is room for those that are tried at once, else a folder of the usual sort.
working_folder() {
    room=$(df -Pk /dev/shm 2>/dev/null | awk 'NR == 2 { print $4 }')
    free=$(awk '$1 == "MemAvailable:" { print $2 }' /proc/meminfo 2>/dev/null)
    if [ -w /dev/shm ] && [ "${room:-0}" -gt 8000000 ] && [ "${free:-0}" -gt 16000000 ]; then
        folder=$(mktemp -d /dev/shm/check.XXXXXX)
    else
        folder=$(mktemp -d)
    fi
    echo "$folder"
}
