#!/usr/bin/env bash
# Audits every polling place of a county, several at a time, and sums up the reports.
#
# usage: audit_all.sh FOLDER RULES [OPTION ..]
#
# Each folder in FOLDER is a place: its roster is place.roster, and its logs end in .log. RULES is a file, or `standard`.
# The options are for GNU parallel, as `--jobs 4`. The same command again audits what is left, failed or has changed.
#
# Each place gets a report.txt, and a page.html if auditorium_view is on the path; FOLDER gets a summary.tsv and an
# index.html. The exit status is the greatest of the places': up to 3 they are verdicts, from 4 on refusals, and from 8
# on there is no report. A place from which none came back has 255.
set -u
shopt -s nullglob
# Names are bytes, and seconds have a point.
export LC_ALL=C

# The files of a place, each with its size and when it was changed.
list_files() {
    local files=(*.roster *.log)
    [ ${#files[@]} -eq 0 ] || stat -L -c '%n %s %y %i' -- "${files[@]}" 2>&1
}

# Audits the place $1, with $2 rosters and logs, by the rules $3. Its report.txt is complete, or isn't there. What
# can't be read is read once more: the files may have been replaced meanwhile.
# shellcheck disable=SC2317 # parallel calls it
audit_place() {
    shopt -s nullglob
    cd -- "$1" || return 8
    local before shown files logs new=report.new.$HOSTNAME.$$ status=8 try
    # What a run that was ended has left.
    rm -f report.txt page.html report.new.*
    for try in 1 2; do
        [ "$try" -eq 1 ] || sleep 1
        files=(*.roster *.log) logs=(*.log)
        # On another machine a log that wasn't copied would be taken for a lost one.
        [ ${#files[@]} -eq "$2" ] || continue
        before=$(list_files)
        auditorium audit place.roster "$3" "${logs[@]:-*.log}" >"$new"
        status=$? shown=255
        if [ "$status" -lt 4 ] && command -v auditorium_view >/dev/null; then
            auditorium_view place.roster "$3" "${logs[@]}" >"$new.html"
            shown=$?
        fi
        if [ "$status" -lt 8 ] && [ "$before" != "$(list_files)" ]; then
            echo "its files changed while they were read" >&2
            status=8
        fi
        [ "$status" -eq 8 ] || [ "$status" -eq 9 ] || break
    done
    [ ${#files[@]} -eq "$2" ] || echo "${#files[@]} rosters and logs are there, and not $2" >&2
    if [ "$status" -lt 8 ]; then
        [ "$shown" -ne "$status" ] || mv "$new.html" page.html
        sync "$new" && mv "$new" report.txt || status=9
    fi
    rm -f "$new" "$new.html"
    return "$status"
}

# Adds to audits.tsv what the jobs did: a line for each place, with its files, the status and seconds. A job is known by
# its line in queue.tsv.
add_jobs() {
    touch audits.tsv queue.tsv jobs.tsv
    awk -F '\t' -v OFS='\t' '
        FILENAME == "audits.tsv" { row[$1] = $0; next }
        FILENAME == "queue.tsv" { place[FNR] = $1; files[FNR] = $3; next }
        FNR > 1 && NF >= 9 && ($1 in place) {
            row[place[$1]] = place[$1] OFS files[$1] OFS ($8 > 0 ? 128 + $8 : $7) OFS $4 + 0
        }
        END { for (name in row) print row[name] }
    ' audits.tsv queue.tsv jobs.tsv >audits.new && mv audits.new audits.tsv && rm jobs.tsv queue.tsv
}

# Names what lies in the places' folders and is called $1.
list_named() {
    find -L . -mindepth 2 -maxdepth 2 -name "$1" -printf '%h\n' | sed 's:^\./::'
}

if [ $# -lt 2 ]; then
    sed -n 's/^# usage/usage/p' "$0" >&2
    exit 4
fi
folder=$1 rules=$2 sum=standard
shift 2
needed=(parallel auditorium)
case " $* " in *' --sshlogin'* | *' -S'* | *' --slf'*) needed=(parallel) ;; esac
for program in "${needed[@]}"; do
    if ! command -v "$program" >/dev/null; then
        echo "there is no program $program on the path" >&2
        exit 127
    fi
done
# A place is audited from its own folder.
if [ "$rules" != standard ]; then
    rules=$(realpath -- "$rules") && sum=$(cksum <"$rules") || exit 6
fi
cd -- "$folder" || exit 6
add_jobs
rm -f summary.tsv index.html

for place in */; do
    printf '%s\n' "${place%/}"
done >places.new
if [ ! -s places.new ]; then
    echo "$folder has no place" >&2
    exit 6
fi
find -L . -mindepth 2 -maxdepth 2 -iname '*.log*' ! \( -name '*.log' ! -name '.*' \) |
    sed "s:^\./\(.*\):warning\: \1 isn't taken as a log, by its name:" >&2

# A place is audited if it has no report, its last status was from 4 on, or its files or the rules are others.
find -L . -mindepth 2 -maxdepth 2 \( -name '*.roster' -o -name '*.log' \) ! -name '.*' -printf '%h\t%f %s %T@ %i\n' |
    sed 's:^\./::' | sort >files.new
list_named report.txt >reports.new
awk -F '\t' -v OFS='\t' -v sum="$sum" '
    FILENAME == "files.new" { count[$1]++; files[$1] = files[$1] " " $2; next }
    FILENAME == "reports.new" { reported[$0]; next }
    FILENAME == "audits.tsv" { audited[$1] = $2; status[$1] = $3; next }
    {
        now = sum files[$0]
        if (!(($0 in reported) && ($0 in audited) && audited[$0] == now && status[$0] < 4))
            print $0, count[$0] + 0, now
    }
' files.new reports.new audits.tsv places.new >queue.tsv

export -f audit_place list_files
export PARALLEL_SHELL=$BASH
parallel --joblog jobs.tsv --colsep '\t' --tagstring '{1}' --env audit_place --env list_files "$@" \
    --quote audit_place '{1}' '{2}' "$rules" <queue.tsv
add_jobs

# How many machines each roster has, as the number of its roles.
find -L . -mindepth 2 -maxdepth 2 -name place.roster -print0 |
    xargs -0 -r grep -aoHZE '(10:supervisor|5:booth)56:' -- | tr '\0' '\t' |
    sed 's:^\./::; s:/place\.roster\t.*::' | uniq -c | sed 's/^ *\([0-9]*\) /\1\t/' >machines.new
awk -F '\t' -v OFS='\t' '
    BEGIN {
        columns = "entries gaps kept broken unsettled unlogged logs refused ends breaks strays forks"
        all = split(columns, column, " ")
        header = "place" OFS "status"
        for (at = 1; at <= all; at++) header = header OFS column[at]
        print header, "seconds"
    }
    FILENAME == "audits.tsv" { status[$1] = $3; seconds[$1] = $4; next }
    FILENAME == "machines.new" { machines[$2] = $1; next }
    {
        now = $0 in status ? status[$0] : 255
        split("", n)
        split("", has)
        lines = 0
        n["unlogged"] = machines[$0] + 0
        while ((getline line < ($0 "/report.txt")) > 0) {
            lines++
            split(line, word, " ")
            first = word[1]
            if (first == "log") {
                n["logs"]++
                n["refused"] += word[8]
                if (!(word[4] in has) && word[4] < machines[$0] + 0) n["unlogged"]--
                has[word[4]]
            } else if (first == "entries") n["entries"] = word[2]
            else if (first == "torn" || first == "malformed") n["ends"]++
            else if (first == "break" || first == "stray" || first == "fork" || first == "gap") n[first "s"]++
            else if (first != "refused" && first != "verdict") n[first]++
        }
        close($0 "/report.txt")
        if (now < 8 && lines == 0) now = 255
        if (now > gravest) gravest = now
        row = $0 OFS now
        for (at = 1; at <= all; at++) row = row OFS (now < 4 ? n[column[at]] + 0 : "-")
        print row, $0 in seconds ? seconds[$0] : "-"
    }
    END { exit gravest }
' audits.tsv machines.new places.new >summary.new
status=$?

# How many places of each status there are, gravest last.
totals=$(sed 1d summary.new | cut -f 2 | sort -n | uniq -c |
    awk '{ sum += $1; line = line ", " $1 " with status " $2 } END { print sum " places: " substr(line, 3) }')
list_named page.html >pages.new
sed 1d summary.new | sort -t $'\t' -k 2,2nr -k 6,6nr -k 7,7nr -k 4,4nr -k 1,1 >graver.new
awk -F '\t' -v totals="$totals" '
    # The text in HTML.
    function shown(text) {
        gsub(/&/, "\\&amp;", text)
        gsub(/</, "\\&lt;", text)
        gsub(/>/, "\\&gt;", text)
        return text
    }
    # The name in a link.
    function linked(name,    at, byte, link) {
        for (at = 1; at <= length(name); at++) {
            byte = substr(name, at, 1)
            link = link (byte ~ /[A-Za-z0-9._~-]/ ? byte : sprintf("%%%02X", code[byte]))
        }
        return link
    }
    BEGIN {
        for (at = 1; at < 256; at++) code[sprintf("%c", at)] = at
        split("findings unsettled broken usage refused absent - unread unwritten memory", word, " ")
        word[0] = "kept"
        print "<!DOCTYPE html>\n<html lang=\"en\">\n<meta charset=\"utf-8\">\n<title>" totals "</title>"
        print "<style>body{font:14px sans-serif}table{border-collapse:collapse}td,th{padding:2px 8px;text-align:right}"
        print "th{position:sticky;top:0;background:#fff}tr{border-bottom:1px solid #ccc}td:nth-child(-n+2){text-align:left;white-space:nowrap}"
        print ".s1{background:#e8f1fa}.s2{background:#fff4d6}.s3{background:#fbdcd2}.s4{background:#e7dcf0}</style>"
        print "<h1>" totals "</h1>\n<p>Gravest first. How to read a report: docs/REPORT.md of the auditor.</p>\n<table>"
    }
    FILENAME == "pages.new" { paged[$0]; next }
    FNR == 1 && FILENAME == "summary.new" {
        printf "<tr>"
        for (at = 1; at <= NF; at++) printf "<th>%s", $at
        print "<th>report"
    }
    FILENAME == "summary.new" { next }
    {
        printf "<tr class=\"s%d\"><td>", $2 < 4 ? $2 : 4
        if ($1 in paged) printf "<a href=\"%s/page.html\">%s</a>", linked($1), shown($1)
        else printf "%s", shown($1)
        printf "<td>%d %s", $2, $2 in word ? word[$2] : "no report"
        for (at = 3; at <= NF; at++) printf "<td>%s", $at
        if ($2 < 8) printf "<td><a href=\"%s/report.txt\">report</a>", linked($1)
        else printf "<td>"
        print ""
    }
    END { print "</table>\n</html>" }
' pages.new summary.new graver.new >index.new
mv summary.new summary.tsv
mv index.new index.html
rm -f ./*.new
echo "$totals"
exit "$status"
