# Sourced by the commands of this repository that take long: what they start ends with them. The kit's `rt` and every script of the
# shell start their work in the background deaf to Ctrl-C, so that it would go on by itself.

# Ends everything that was started, then this script.
end_all() { # STATUS
    local group
    trap - INT TERM HUP
    for group in $(jobs -p); do
        kill -TERM -- "-$group" 2>/dev/null || true
    done
    wait || true
    exit "$1"
}

# Runs a command in a process group of its own, with no input, and waits for it.
together() { # COMMAND...
    local group status=0
    trap 'end_all 130' INT
    trap 'end_all 143' TERM
    trap 'end_all 129' HUP
    set -m
    "$@" </dev/null &
    group=$!
    set +m
    wait "$group" || status=$?
    trap - INT TERM HUP
    return "$status"
}
