#!/usr/bin/env bash
# Makes a county of polling places whose logs are damaged, and says what the audit of each has to show.
#
# usage: make_county.sh N FOLDER [SEED]
#
# FOLDER is made, with N places. Twelve in turn are damaged in twelve ways; sizes, logs, cuts and bytes are picked by the
# number SEED. FOLDER/expected.tsv has the columns of summary.tsv up to `ends`, for the standard rules. They follow from
# what is done here and from what the rules ask, not from any report.
set -euo pipefail

if [ $# -lt 2 ]; then
    sed -n 's/^# usage/usage/p' "$0" >&2
    exit 4
fi
count=$1 folder=$2 seed=${3:-1}
if ! command -v auditorium >/dev/null; then
    echo "there is no program auditorium on the path" >&2
    exit 127
fi
work=$(mktemp -d)
trap 'rm -r "$work"' EXIT

# A number below $2, for the use $1.
pick() {
    local sum
    sum=$(cksum <<<"$seed $place $1")
    echo $((${sum%% *} % $2))
}

# Writes the roster and the logs by the script $2 and the command $1, so that all that it says is done.
carry_out() {
    auditorium "$1" "$2" place >"$work/output"
    entries=$(grep -c '^do ' "$2")
}

# Removes all logs but $log.
keep_one() {
    mv "$log" "$work/kept"
    rm place.*.log
    mv "$work/kept" "$log"
}

# The offsets of a text in $log.
offsets() {
    LC_ALL=C grep -abo -e "$1" "$log" | cut -d : -f 1
}

# Where the records of $log begin.
records() {
    offsets '(4:sent(6:sealed\|(3:got(6:sealed'
}

# Where the deed $1 of the session begins.
deed() {
    offsets "($1${#session}:$session"
}

# Changes the byte of $log at the offset $1.
alter() {
    local byte
    byte=$(od -A n -t u1 -j "$1" -N 1 "$log")
    printf '%b' "\\0$(printf '%o' $((byte ^ 1)))" | dd of="$log" bs=1 seek="$1" conv=notrunc status=none
}

# Changes a byte in the signature of the session's activation or commitment.
alter_entry() {
    local deeds=(8:activate 6:commit)
    alter $(($(deed "${deeds[$(pick deed 2)]}") + 60 + $(pick byte 2200)))
}

# Loses the entry of the first booth with the number $1 on its way to the supervisor. The script gets that booth alone,
# so that its threads have one order.
lose() {
    sed -i '/ b[23]/d; /^step /d' "$work/script"
    echo "lose b1 $1 sv" >>"$work/script"
}

# Prints the place's line: status, entries, gaps, kept, broken, unsettled, unlogged, logs, refused, ends.
expect() {
    local IFS=$'\t'
    printf '%s\t%s\n' "$name" "$*"
}

# Makes a place in the current folder.
make_place() {
    # Tenth sessions are cancelled; the last one and the one that is to be damaged, not the first, are cast.
    sessions=$((8 + $(pick sessions 22)))
    sessions=$((sessions + (sessions % 10 == 0)))
    session=$((2 + $(pick session $((sessions - 2)))))
    session=$((session - (session % 10 == 0)))
    # Keys of height 5 sign 32 times, enough for 30 sessions, and take a thirtieth of the time of those of height 10.
    auditorium make "$sessions" |
        sed "s/^seed .*/&$(printf '%08x%08x' "$seed" "$place")/; s/^key w4 h10$/key w4 h5/" >"$work/script"
    local logs=(place.b1.log place.b2.log place.b3.log place.sv.log) left end
    log=${logs[$(pick log 4)]}
    case $((place % 12)) in
    1)  # Nothing is lost.
        carry_out play "$work/script"
        expect 0 "$entries" 0 22 0 0 0 4 0 0 ;;
    2)  # One log is left. Everybody has heard everything, so it has all entries.
        carry_out run "$work/script"
        keep_one
        expect 0 "$entries" 0 22 0 0 3 1 0 0 ;;
    3)  # A booth's log is left, torn in a record. It has entries in the order of sending, so none that is named is lost.
        carry_out play "$work/script"
        log=${logs[$(pick booth 3)]} left=$((1 + $(pick left $((entries - 1)))))
        keep_one
        end=$(records | sed -n "$((left + 1))p")
        truncate -s $((end + 1 + $(pick byte 2200))) "$log"
        expect 1 "$left" 0 22 0 0 3 1 0 1 ;;
    4)  # The same, cut after a record: nothing shows it.
        carry_out play "$work/script"
        log=${logs[$(pick booth 3)]} left=$((1 + $(pick left $((entries - 1)))))
        keep_one
        truncate -s "$(records | sed -n "$((left + 1))p")" "$log"
        expect 0 "$left" 0 22 0 0 3 1 0 0 ;;
    5)  # The supervisor's log is left, cut after a cast, which comes before the commitment there. C2 and K2 ask for the
        # commitment, V2 and P4 for all that came before the cast.
        carry_out play "$work/script"
        log=place.sv.log
        keep_one
        end=$(records | awk -v cast="$(deed 4:cast)" '!end && $1 > cast { end = $1 } END { print end }')
        truncate -s "$end" "$log"
        expect 2 "$(records | wc -l)" 1 18 0 4 3 1 0 0 ;;
    6)  # The supervisor's log is left, and an activation was lost on its way there. C1 and K2 ask for it, V2, P2 and P4
        # for all that came before a later cast or authorisation.
        lose $((3 * $(pick lost 2)))
        carry_out run "$work/script"
        log=place.sv.log
        keep_one
        expect 2 $((entries - 1)) 1 17 0 5 1 1 0 0 ;;
    7)  # The same with the commitment of the third session: C2 asks for it.
        lose $((3 * $(pick lost 2)))
        lose 7
        carry_out run "$work/script"
        log=place.sv.log
        keep_one
        expect 2 $((entries - 2)) 2 16 0 6 1 1 0 0 ;;
    8)  # A log is altered, the others aren't.
        carry_out play "$work/script"
        alter_entry
        expect 1 "$entries" 0 22 0 0 0 4 1 0 ;;
    9)  # The altered log alone is left. Here each entry names the one before it alone, so what came before the altered
        # one is tied to nothing after it: besides the rules as in 6, or C2 for C1, O2 and P3 ask for that.
        carry_out play "$work/script"
        keep_one
        alter_entry
        expect 2 $((entries - 1)) 1 15 0 7 3 1 1 0 ;;
    10) # A log is replaced by one of another day with the same keys, at whose end another ballot was cast: two entries
        # have one number (K1), a session is cast twice (C3), and the election is closed twice (P1).
        sed "s/^\(do b. c[a-z]* $sessions \)00/\1ff/" "$work/script" >"$work/other"
        carry_out play "$work/other"
        mv "$log" "$work/kept"
        carry_out play "$work/script"
        mv "$work/kept" "$log"
        expect 3 $((entries + 3)) 0 19 3 0 0 4 0 0 ;;
    11) # The roster, or a log's header, is altered.
        carry_out play "$work/script"
        logs+=(place.roster)
        log=${logs[$(pick file 5)]}
        alter 0
        expect 5 - - - - - - - - - ;;
    0)  # No log is left.
        carry_out play "$work/script"
        rm place.*.log
        expect 6 - - - - - - - - - ;;
    esac
}

mkdir "$folder"
printf 'place\tstatus\tentries\tgaps\tkept\tbroken\tunsettled\tunlogged\tlogs\trefused\tends\n' \
    >"$folder/expected.tsv"
for ((place = 1; place <= count; place++)); do
    name=$(printf '%0*d' ${#count} "$place")
    mkdir "$folder/$name"
    (
        cd "$folder/$name"
        make_place
    ) >>"$folder/expected.tsv"
done
