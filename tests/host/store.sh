# The checks of stores: tests/host/run reads this file and has the helpers it uses.

# with_store FILE SCRIPT: serves a script of these lines with the sanitized host.
with_store() {
    printf '%b' "$2" >"$work/script"
    "$sanitized" --store "$1" "$work/script"
}

# without_times COMMAND...: its output, with every time as TIME.
without_times() {
    local status=0
    "$@" >"$work/timed" || status=$?
    sed -E 's/[0-9]{4}-[0-9]{2}-[0-9]{2} [0-9:]{8} UTC/TIME/g' "$work/timed"
    return $status
}

check_store_examples() {
    local example program
    for program in "$plain" "$sanitized"; do
        for example in examples/worked-example examples/spring-session examples/kept-age tests/host/all-answers; do
            rm -f "$work/new.store"
            check "${example##*/}, ${program##*/} --store" prints_exactly "$example.expected" 0 \
                "$program" --store "$work/new.store" "$example.txt"
        done
        rm -f "$work/room.store"
        for example in restart-before restart-after; do
            check "$example, ${program##*/}" prints_exactly "examples/$example.expected" 0 \
                without_times "$program" --store "$work/room.store" "examples/$example.txt"
        done
    done
    rm -f "$work/new.store"
    check "built-in spring session --store" prints_exactly examples/spring-session.expected 0 \
        "$sanitized" --store "$work/new.store" --spring
}

# What the two examples left in the store, in each form.
check_looking() {
    local file=$work/room.store
    check "the board of a store" prints_exactly tests/host/board.expected 0 without_times "$sanitized" --board "$file"
    check "the log of a store in words" prints_exactly tests/host/log.expected 0 without_times "$sanitized" --log "$file"
    check "the log of a store as a script" prints_exactly tests/host/log-script.expected 0 \
        without_times "$sanitized" --log "$file" --as script
    check "a replayed log ends with the same values" bash -c "'$plain' --log '$file' --as script >'$work/replay' &&
        '$plain' --store '$work/replayed.store' '$work/replay' >/dev/null &&
        diff <('$plain' --board '$file' | sed '1,/^item /d') <('$plain' --board '$work/replayed.store' | sed '1,/^item /d')"
    echo "SELECT name, value FROM writes JOIN names USING(segment) WHERE what = 'item' AND names.number = item AND item = 2;" \
        >"$work/question"
    check "the log of a store answers in SQL" bash -c "'$plain' --log '$file' --as sql | sqlite3 '$work/audit.db' &&
        [ \"\$(sqlite3 '$work/audit.db' <'$work/question')\" = 'volume given|450' ]"
    check "the last segment of a store" bash -c "'$sanitized' --keep 1 '$file' '$work/kept.store' &&
        '$sanitized' --board '$work/kept.store' | grep -q '1 commit in 1 segment' &&
        diff <('$plain' --board '$file' | sed '1,/^item /d') <('$plain' --board '$work/kept.store' | sed '1,/^item /d')"
    check "a store that was shortened goes on" bash -c "printf 'begin 0\nwrite 0 5 6\nend 0\n' |
        '$sanitized' --store '$work/kept.store' | grep -qx 'item 5: 0 -> 6'"
}

# says FILE WORDS: no words are to be looked for in an empty file.
says() {
    if [ -n "$2" ]; then grep -qF -e "$2" "$1"; else [ ! -s "$1" ]; fi
}

# stops STATUS SHOWN ERRORS FILE SCRIPT: words on standard output and on standard error.
stops() {
    local status=$1 shown=$2 errors=$3 got=0
    with_store "$4" "$5" >"$work/got" 2>"$work/errors" || got=$?
    cat "$work/got" "$work/errors"
    [ "$got" -eq "$status" ] && says "$work/got" "$shown" && says "$work/errors" "$errors"
}

check_store_stops() {
    local file=$work/stops.store right='default 0 9 0 open\n'
    check "store: a wrong table makes no file" stops 1 \
        "item 7 (line 2): the value 20 is not from 30 to 250" "" "$file" "${right}7 30 250 20 open\nbegin 0\n"
    check "store: a missing row makes no file" stops 2 "" ":2: no line for item 1 " \
        "$file" "0 0 9 0 open\nbegin 0\n"
    check "store: no file was made" test ! -e "$file"
    check "store: no requests, and the file is there" stops 0 "no item changed" "" "$file" "$right"
    check "store: only its owner may read it" test "$(stat -c %a "$file")" = 600
    check "store: rows that differ are told" stops 0 \
        "item 7: line 2 of the script is left out, the store has 0 to 9, open" "" \
        "$file" "${right}7 0 10 0 open\n"
    check "store: another kind is told" stops 0 \
        "item 8: line 1 of the script is left out, the store has 0 to 9, open" "" \
        "$file" "8 0 9 3 guarded\nbegin 0\n"
    check "store: the store's limits are in force" stops 0 "above the ceiling of item 7 (9)" "" \
        "$file" "7 0 10 0 open\nbegin 0\nwrite 0 7 10\n"
    check "store: new names are taken" stops 0 "release begins: opened" "" "$file" "name desk 3 release\nbegin 3\n"
    check "store: names are kept" stops 0 "Desks: 3 release." "" "$file" "begin 3\n"
    check "store: no such folder" stops 2 "" "$work/absent/" "$work/absent/file" "$right"
    check "store: a folder is no file" stops 2 "" "$work: " "$work" "$right"
    check "store: a file that may not grow" bash -c "rm -f '$file'; ulimit -f 1
        printf '${right}begin 0\nend 0\n' | '$plain' --store '$file' 2>&1 | cat >'$quick/full-disk'
        [ \"\${PIPESTATUS[1]}\" -eq 2 ] && ! grep -q committed '$quick/full-disk' && [ ! -e '$file' ]"
}

check_store() {
    check_store_examples
    check_looking
    check_store_stops
    check "killer compiles" "${CC:-cc}" -std=c99 "${warnings[@]}" tests/host/killer.c -o "$work/killer"
    check "faults compile" "${CC:-cc}" -std=c99 "${warnings[@]}" -shared -fPIC tests/host/faults.c -o "$work/faults.so"
    local sources=(tests/host/damage.c host/store/*.c host/room/*.c host/text/*.c host/common/*.c
        "$library/libhub.a" "$library/libhub_journal.a")
    check "damage compiles" "${CC:-cc}" -std=c99 "${warnings[@]}" -O2 -Iinclude -Ihost "${sources[@]}" -o "$work/damage"
    # Each on its own core as far as there are two: the slow one beside the others.
    "$work/damage" "$quick" "${CHAFFDANCER_STRIDE:-16}" >"$work/damage.told" 2>&1 &
    local slow=$!
    [ -x target/bin/chaffdancer ] || check "the program is built" tests/program/build
    count_told "test of attacks" python3 tests/host/attacks.py "$plain" target/bin/chaffdancer "$quick" 5
    count_told "test of attacks, sanitized" python3 tests/host/attacks.py "$sanitized" target/bin/chaffdancer "$quick" 211
    count_told "test of rooms" python3 tests/host/rooms.py "$plain" "$quick" "${CHAFFDANCER_SOAK:-2000000}"
    count_told "test of rooms, sanitized" python3 tests/host/rooms.py "$sanitized" "$quick" 0
    count_told "test of faults" python3 tests/host/faults.py "$plain" "$work/killer" "$work/faults.so" "$quick"
    count_told "test of kills" python3 tests/host/kills.py "$plain" "${CHAFFDANCER_KILLS:-300}" 1 "$quick"
    count_told "test of kills on a disk" python3 tests/host/kills.py "$plain" 30 2 "$work"
    count_told "test of kills, sanitized" python3 tests/host/kills.py "$sanitized" 20 3 "$quick"
    local ended=0
    wait "$slow" || ended=$?
    count_told "test of damage" bash -c "cat '$work/damage.told'; exit $ended"
}
