#!/usr/bin/env bash
# progress.sh PID|PATH [SECONDS]: how far a running `direct` or `collect` is in each file that it reads, and how much it
# wrote. PATH is a file that it has open: one that it reads or writes. It looks twice, SECONDS apart (1), and tells how
# long the rest takes at the speed between. It reads /proc/PID/fd and fdinfo, and so wants to be run as the same user, or
# as root. The file that the kernel says has been read may be a piece ahead of what was worked off.
set -u
usage() {
    echo "usage: progress.sh PID|PATH [SECONDS]" >&2
    exit 1
}
if [ $# -lt 1 ] || [ $# -gt 2 ]; then usage; fi
seconds=${2:-1}
if [[ $1 =~ ^[0-9]+$ ]]; then
    pids=$1
else
    path=$(realpath -e "$1") || exit 1
    pids=
    for fd in /proc/[0-9]*/fd/*; do
        [ "$(readlink "$fd" 2> /dev/null)" = "$path" ] || continue
        pid=${fd#/proc/}
        pid=${pid%%/*}
        [ "$(cat "/proc/$pid/comm" 2> /dev/null)" = ipfixcol ] && pids="$pids $pid"
    done
    [ -n "$pids" ] || { echo "no ipfixcol has $path open" >&2; exit 1; }
fi

# One line for each regular file of a process: its descriptor, whether it is read or written, the place, the size, the path.
files() {
    local fd place flags target
    for fd in "/proc/$1/fd/"*; do
        # What is printed isn't looked at.
        case ${fd##*/} in 1 | 2) continue ;; esac
        [ -f "$fd" ] || continue
        target=$(readlink "$fd") || continue
        place='' flags=''
        while read -r name value; do
            case $name in
                pos:) place=$value ;;
                flags:) flags=$value ;;
            esac
        done < "/proc/$1/fdinfo/${fd##*/}"
        [ -n "$place" ] || continue
        # The two lowest bits of the flags, which are octal: 0 where it is only read.
        way='write'
        [ $((0$flags & 3)) = 0 ] && way='read'
        echo "${fd##*/} $way $place $(stat -Lc %s "$fd") $target"
    done
}
span() {
    if [ "$1" -ge 3600 ]; then
        printf '%dh%02dm' $(($1 / 3600)) $(($1 % 3600 / 60))
    elif [ "$1" -ge 60 ]; then
        printf '%dm%02ds' $(($1 / 60)) $(($1 % 60))
    else
        printf '%ds' "$1"
    fi
}
status=0
for pid in $pids; do
    if ! [ -r "/proc/$pid/fdinfo/0" ] && ! ls "/proc/$pid/fd/" > /dev/null 2>&1; then
        echo "process $pid isn't there, or is another user's" >&2
        status=1
        continue
    fi
    before=$(files "$pid")
    begin=$(date +%s%N)
    sleep "$seconds"
    now=$(files "$pid")
    passed=$((($(date +%s%N) - begin) / 1000000))
    [ "$passed" -gt 0 ] || passed=1
    echo "process $pid: $(tr '\0' ' ' < "/proc/$pid/cmdline" 2> /dev/null)"
    if [ -z "$now" ]; then
        echo "  no file is open"
        continue
    fi
    while read -r fd way place size target; do
        was=$(awk -v fd="$fd" '$1 == fd { print $3, $4 }' <<< "$before")
        [ -n "$was" ] || was="$place $size"
        if [ "$way" = write ]; then
            # What is appended to has its place at the end only once it was written.
            grown=$((size - ${was#* }))
            echo "  written $target: $size octets, $((grown * 1000 / passed)) a second"
        elif [ "$size" = 0 ]; then
            echo "  read    $target: $place octets"
        else
            speed=$(((place - ${was% *}) * 1000 / passed))
            rest="at this speed no end is to be seen"
            [ "$speed" -gt 0 ] && rest="$(span $(((size - place) / speed))) to go"
            [ "$place" -ge "$size" ] && rest="at its end"
            echo "  read    $target: $((place * 100 / size))%, $place of $size octets, $speed a second, $rest"
        fi
    done <<< "$now"
done
exit "$status"
