# What the scripts at the top share: finding the toolchain, and saying that long work goes on.

# Prints where the command rt of the Rattle toolchain is: on PATH, below $RATTLE or $RATTLE_HOME, or in a usual place.
find_rt() {
    local place name
    command -v rt && return 0
    for place in "${RATTLE:-}" "${RATTLE_HOME:-}" "${HOME:-}/.rattle"; do
        for name in "$place/rt" "$place/bin/rt"; do
            if [[ -n $place && -f $name && -x $name ]]; then
                printf '%s\n' "$name"
                return 0
            fi
        done
    done
    return 1
}

# Says what is missing where there is no rt.
say_no_rt() {
    cat >&2 <<TEXT
$1: the Rattle toolchain is not found, and without it nothing here can be proved or built.
$1: put the folder of its command 'rt' on PATH, or let the variable RATTLE name that folder.
TEXT
}

# Waits for a process that this shell started, says every ten seconds on standard error that it goes on, and answers its status.
wait_for() {
    local name=$1 what=$2 process=$3 start=$SECONDS said=$SECONDS
    while kill -0 "$process" 2> /dev/null; do
        sleep 0.2
        if ((SECONDS - said >= 10)); then
            said=$SECONDS
            printf '%s: %s, %d seconds so far\n' "$name" "$what" $((SECONDS - start)) >&2
        fi
    done
    wait "$process"
}
