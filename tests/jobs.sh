# Tests as jobs: as many at once as there are processors, each in an empty folder of its own with a fresh image `img`, told in order.
most=${JOBS:-$(nproc)}
passed=0
failed=0
pids=()
names=()
next=0

# told NAME WHY: counts a test; an empty WHY has passed.
told() {
    if [ -z "$2" ]; then
        passed=$((passed + 1))
        printf 'ok: %s\n' "$1"
    else
        failed=$((failed + 1))
        printf 'FAILED: %s: %s\n' "$1" "$2"
    fi
}

# tell_next: waits for the first job that is not told yet, and tells it.
tell_next() {
    wait "${pids[next]}"
    told "${names[next]}" "$(cat "$room/$next.said")"
    rm -rf "${room:?}/$next" "$room/$next.said"
    next=$((next + 1))
}

# later NAME COMMAND..: a test that has passed where the command writes nothing.
later() {
    local at=$room/${#pids[@]}
    while [ "$(jobs -pr | wc -l)" -ge "$most" ]; do
        wait -n
    done
    mkdir "$at"
    (cd "$at" && cp "$fresh" img && "${@:2}") >"$at.said" 2>&1 &
    pids+=($!)
    names+=("$1")
    while [ "$next" -lt "${#pids[@]}" ] && ! kill -0 "${pids[next]}" 2>/dev/null; do
        tell_next
    done
}

# finish: waits for all jobs.
finish() {
    while [ "$next" -lt "${#pids[@]}" ]; do
        tell_next
    done
}

# by_python FILE WORDS..: runs tests/FILE.py on the program; what it prints does not fit.
by_python() {
    timeout 300 python3 -B "$top/tests/$1.py" "$program" "${@:2}" || echo "status $?"
}
