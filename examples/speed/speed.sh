#!/usr/bin/env bash
# Measures `or1k run` and `or1k replay` on longer builds of examples/c, and QEMU's or1k-sim on the same images where
# qemu-system-or1k is installed. Prints a table of seconds, of three tries the least.
#
#     speed.sh [TRIES]
#
# Wants gcc-or1k-elf and make, and a built program.
here=$(cd "$(dirname "$0")" && pwd)
top=$here/../..
tries=${1:-3}
folder=$(mktemp -d) || exit 1
trap 'rm -rf "$folder"' EXIT
cp "$here"/../c/* "$here/fib.c" "$folder" && cd "$folder" || exit 1

# Prints the seconds of a command.
seconds() {
    local start=$EPOCHREALTIME
    "$@" > shown || return 1
    echo "$start $EPOCHREALTIME"
}

# Prints the seconds until QEMU has shown a line. It does not end by itself: its l.nop 1 does nothing.
qemu_seconds() {
    local image=$1 cores=$2 start=$EPOCHREALTIME line end process
    mkfifo line
    qemu-system-or1k -M or1k-sim -m 32 -smp "$cores" -accel tcg,thread=multi -display none -monitor none -serial stdio \
        -kernel "$image" < /dev/null > line 2> /dev/null &
    process=$!
    read -r line < line
    end=$EPOCHREALTIME
    kill "$process"
    wait "$process" 2> /dev/null
    rm line
    echo "$start $end"
}

# The least difference of the lines' two numbers.
least() {
    awk '{ took = $2 - $1; if (NR == 1 || took < best) best = took } END { printf "%.2f", best }'
}

# measure NAME CORES DEFINES [without]: a row; `without` leaves QEMU out.
measure() {
    local name=$1 cores=$2 defines=$3 try steps
    make -s -B "$name.elf" PROGRAMS="$name" DEFINES="$defines" || exit 1
    : > runs; : > replays; : > others
    for try in $(seq "$tries"); do
        seconds "$top/or1k" run "$name.elf" - sched rep --cores "$cores" --budget 67108864 --ram 1 >> runs || exit 1
        seconds "$top/or1k" replay "$name.elf" - sched again >> replays || exit 1
        if [ -z "$4" ] && command -v qemu-system-or1k > /dev/null; then
            qemu_seconds "$name.elf" "$cores" >> others
        fi
    done
    steps=$(awk '/^core / { steps += $6 } END { printf "%.1f", steps / 1000000 }' rep)
    echo "| \`$name\` $defines | $cores | $steps | $(least < runs) | $(least < replays) | $([ -s others ] && least < others || echo -) |"
}

echo "| Program | Cores | Million steps | \`run\` | \`replay\` | QEMU |"
echo "|---|---|---|---|---|---|"
measure fib 1 -DN=31
measure interrupts 1 -DTICKS=40000 without
measure lock 2 -DROUNDS=200000
measure race 2 -DROUNDS=4000000
echo "load $(cut -d' ' -f1 /proc/loadavg) on $(nproc) processors"
