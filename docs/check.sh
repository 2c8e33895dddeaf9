#!/bin/sh
# Looks whether the documents say what is there: links and their anchors, paths, wrong bodies, names in backticks and the files where they
# are said to stand, and pictures; that EDITS.md lists each edit, BELIEVE.md quotes the sources, and PROMISES.md has each export and cites clauses that there are;
# that neither an old word nor a merge's mark stands in them; that crates name of one another's specs what their lists pass on; that C, Rust and
# Python count alike, and bytes follow from a row's words; and that each is short enough: README.md by lines, other documents by words of prose,
# and tables by the words of a cell. It prints a line for each finding and exits 1, or prints nothing and exits 0.
# A new old word goes to `old`.
LC_ALL=C
export LC_ALL
cd "$(dirname "$0")/.." || exit 1
work=$(mktemp -d) || exit 1
trap 'rm -rf "$work"' EXIT

# The documents, and beside them what else users read.
documents="README.md docs/*.md bench/README.md examples/README.md crates/README.md crates/*/README.md"
shown="examples/tour/*.notes examples/tour/index.html docs/pictures/draw.py include/blink.h include/blink_bindings.h include/blink.hpp python/*.py rust/blink/src/*.rs examples/*/*.c examples/*/*.cpp examples/*/*.py examples/rust/*.rs"

# README.md has at most so many lines; each other document but BOOK.md so many words of prose; each cell of a table so many words. Names in
# backticks don't count.
most_lines=130
most_words=2600
most_in_cell=40

# Names of code that were renamed, and words of prose that the field has others for. CHANGING.md says why, in lines that begin with "Not".
old='IsSound|Sound|SoundRun|SoundTree|SoundStatements|StepKeepsSound|TurnKeepsSoundRun|sound'
old="$old"'|Moment|Moments|moment|moments|moment_of|moment_with|turns_between_moments'
old="$old"'|IsLoose|loose|loose_at|loose_of|in no chain|stands? in no chain'
old="$old"'|IsShort|way_left|room_to|Ledger|PlainLedger|AreLinks|AreFirsts|TakesTurn|TakesSomeTurn|TurnsPage|StepsPage|stopped_book'
old="$old"'|Desk|desk|Outlet|Outlets|outlet|outlets|Pours|BreaksOff|GoesOut|LeavesLines|LeavesPart|LeavesFront'
old="$old"'|Plays|Plays\.antt|Sat|drafts?|drafted|has_drafted|draft_row|DraftsKeepTable|RowsAreDrafted'
old="$old"'|NUMBERS_OF_INSERTION|ROWS_OF_INSERTION|MOST_PASSES|is_too_large'
old="$old"'|SawFrontOf|OneIsFront|FrontsOfOneList|IsAmong|StandsIn|fronts? of (a|the|one|its) lists?'
old="$old"'|Keeps|EntriesThatATreeKeeps|kept under|keys? keeps?|keeps? (a|its|the) pointer|is kept for'

# shellcheck disable=SC2086
grep -nwE "$old" $documents $shown | grep -v '^docs/CHANGING.md:[0-9]*:Not [*]' | while IFS=: read -r file line text; do
    word=$(printf '%s\n' "$text" | grep -owE "$old" | head -n 1)
    echo "$file:$line: old word: $word"
done >"$work/found"

# Every .md file, without what a build leaves; of each the lines outside code blocks.
find . \( -name .git -o -name out -o -name target \) -prune -o -name '*.md' -print | sed 's|^\./||' | sort >"$work/pages"

# The marks that a merge leaves where two texts differ.
# shellcheck disable=SC2086
xargs grep -nE '^(<<<<<<<|=======|>>>>>>>)( |$)' $shown <"$work/pages" | sed -E 's/^([^:]*:[0-9]*):.*/\1: the mark of a merge/' >>"$work/found"

lines=$(wc -l <README.md)
[ "$lines" -le $most_lines ] || echo "README.md: $lines lines, and $most_lines are enough" >>"$work/found"

# Words of prose: lines of code blocks and of tables are looked up, not read, and don't count. A cell that reads as a paragraph is to be one.
xargs awk -v most="$most_words" -v most_in_cell="$most_in_cell" '
    function tell() { if (page != "" && page != "docs/BOOK.md" && words > most) print page ": " words " words of prose, and " most " are enough" }
    FNR == 1 { tell(); page = FILENAME; words = 0; code = 0 }
    /^```/ { code = !code; next }
    code { next }
    { bare = $0; gsub(/`[^`]*`/, "", bare) }
    bare !~ /[|]/ { words += NF; next }
    {
        cells = split(bare, cell, "|")
        for (at = 1; at <= cells; at++) {
            count = split(cell[at], parts, " ")
            if (count > most_in_cell) print FILENAME ":" FNR ": a cell of " count " words, and " most_in_cell " are enough"
        }
    }
    END { tell() }' <"$work/pages" >>"$work/found"

prose() {
    awk '/^```/ { code = !code; print ""; next } { print code ? "" : $0 }' "$1"
}

# The anchors of a page's headings.
anchors() {
    prose "$1" | sed -n 's/^#\{1,6\} *//p' | tr 'A-Z' 'a-z' | sed 's/[^a-z0-9 _-]//g; s/ /-/g'
}

while read -r page; do
    folder=$(dirname "$page")
    # backticks first: what stands in them is no link
    prose "$page" | sed 's/`[^`]*`//g' | grep -no '\](\([^)]*\))' | sed 's/\](//; s/)$//; s/ ".*"$//' | while IFS=: read -r line target; do
        case $target in
            *://* | mailto:*) continue ;;
        esac
        file=${target%%#*}
        anchor=${target#"$file"}
        anchor=${anchor#\#}
        if [ -z "$file" ]; then
            there=$page
        else
            there=$folder/$file
        fi
        if [ ! -e "$there" ]; then
            echo "$page:$line: no such file: $target"
            continue
        fi
        case $there in
            *.md)
                if [ -n "$anchor" ] && ! anchors "$there" | grep -qxF -e "$anchor"; then
                    echo "$page:$line: no such anchor: $target"
                fi
                ;;
        esac
    done
done <"$work/pages" >>"$work/found"

# What stands in backticks, a line each: page:line:text.
while read -r page; do
    prose "$page" | grep -no '`[^`]*`' | sed 's/`//g' | sed "s|^|$page:|"
done <"$work/pages" >"$work/quoted"

# The sources, and whatever else is no document.
find . \( -name .git -o -name out -o -name target -o -name '*.md' -o -name '*.png' -o -name '*.html' \) -prune -o -type f -print | sed 's|^\./||' >"$work/files"

# Paths: from the top, of a crate by its name, or of some crate; and names of files.
while IFS=: read -r page line text; do
    case $text in
        *[!A-Za-z0-9_./-]*) continue ;;
        */*) ;;
        ?*.rt | ?*.antt | ?*.sh | ?*.edit)
            grep -qE "(^|/)$text\$" "$work/files" || echo "$page:$line: no file has this name: $text"
            continue
            ;;
        *) continue ;;
    esac
    path=${text#./}
    case $path in
        crates/* | docs/* | examples/* | bench/*)
            [ -e "$path" ] || echo "$page:$line: no such path: $text"
            ;;
        src/* | specs/* | proofs/* | must-fail/* | wrong/* | page/*)
            there=no
            for crate in crates/*; do
                [ -e "$crate/$path" ] && there=yes
            done
            [ $there = yes ] || echo "$page:$line: no crate has: $text"
            ;;
        *)
            crate=${path%%/*}
            rest=${path#*/}
            if [ -d "crates/$crate" ]; then
                [ -e "crates/$crate/$rest" ] || [ -e "crates/$crate/must-fail/$rest.edit" ] || [ -e "crates/$crate/wrong/$rest.edit" ] \
                    || echo "$page:$line: crate $crate has no $rest"
            fi
            ;;
    esac
done <"$work/quoted" >>"$work/found"

# Quotes: each line of a text block stands in some specs/ or src/, but for blanks at its ends.
grep -E '^crates/[^/]*/(specs|src)/' "$work/files" | tr '\n' '\0' | xargs -0 cat >"$work/sources"
awk -v sources="$work/sources" '
    function bare(line) { sub(/^[ \t]+/, "", line); sub(/[ \t]+$/, "", line); return line }
    BEGIN { while ((getline line < sources) > 0) known[bare(line)] = 1 }
    /^```/ { quotes = $0 == "```text"; next }
    quotes && NF && !(bare($0) in known) { print FILENAME ":" FNR ": not in the sources: " bare($0) }' docs/BELIEVE.md >>"$work/found"

for edit in crates/*/must-fail/*.edit crates/*/wrong/*.edit; do
    name=${edit##*/}
    grep -q "${name%.edit}\`" docs/EDITS.md || echo "docs/EDITS.md: doesn't list $edit"
done >>"$work/found"
edits=$(find crates -path '*/must-fail/*.edit' -o -path '*/wrong/*.edit' | wc -l)
for page in docs/EDITS.md docs/CHANGING.md; do
    grep -q "There are $edits edits" $page || echo "$page: there are $edits edits"
done >>"$work/found"

# PROMISES.md: each `call/clause` is a call with such a clause, and each `Type::call` a call, of the crates that its section names first.
find crates -name out -prune -o -path '*/src/*' -name '*.rt' -print | sort | xargs awk '
    FNR == 1 { split(FILENAME, part, "/"); call = "" }
    /^ *(pub(\(crate\))? )?(const )?(extern "C" )?fn [a-z_0-9]+/ { call = $0; sub(/^.*fn /, "", call); sub(/[^a-z_0-9].*/, "", call); print part[2], call, "" }
    /^ *ensures / && call != "" { print part[2], call, $2 == "{" ? "" : $2 }' >"$work/clauses"
awk -v clauses="$work/clauses" '
    BEGIN { while ((getline line < clauses) > 0) known[line] = 1 }
    function looks(call, clause,   n, names, at) {
        sub(/^.*::/, "", call)
        n = split(crates, names, " ")
        for (at = 1; at <= n; at++) if ((names[at] " " call " " clause) in known) return 1
        return 0
    }
    /^(Calls|Exports) of `/ {
        crates = ""
        n = split($0, parts, "`")
        for (at = 2; at <= n; at += 2) crates = crates " " parts[at]
    }
    {
        n = crates == "" ? 0 : split($0, parts, "`")
        for (at = 2; at <= n; at += 2) {
            if (parts[at] ~ /^[A-Za-z_:]+\/[a-z_]+$/) {
                split(parts[at], names, "/")
                if (!looks(names[1], names[2])) print FILENAME ":" FNR ": no such clause: " parts[at]
            } else if (parts[at] ~ /^[A-Za-z]+::[a-z_]+$/ && !looks(parts[at], "")) print FILENAME ":" FNR ": no such call: " parts[at]
        }
    }' docs/PROMISES.md >>"$work/found"

# Codes: FORMATS.md has a row with the number and the name of each code of the header.
sed -n 's/^ *\(BLINK_[A-Z_]*\) = \([1-9][0-9]*\),* .*/\2 \1/p' include/blink.h | sed '1,/ BLINK_REPLACED/d' | while read -r number name; do
    grep -q "^$number | .*\`$name\`" docs/FORMATS.md || echo "docs/FORMATS.md: no row for code $number, $name"
done >>"$work/found"

# Exports: PROMISES.md has a row for each.
cat crates/blink_c/src/*.rt | sed -n 's/^pub extern "C" fn \([a-z_]*\).*/\1/p' | while read -r name; do
    grep -q "^[^|]*\`$name\`" docs/PROMISES.md || echo "docs/PROMISES.md: no row for the export $name"
done >>"$work/found"

# The wall of a crate: no other crate names a file of specs/ that stands below "no crate above names" in Lib.antt, and some crate each that stands
# above, but for those whose words are named by their file.
for lib in crates/*/specs/Lib.antt; do
    crate=$(echo "$lib" | cut -d/ -f2)
    grep -rhoE --include='*.antt' --include='*.rt' "Rattle\.$crate\.specs\.[A-Z][A-Za-z]*" $(ls -d crates/*/src crates/*/specs crates/*/proofs | grep -v "^crates/$crate/") |
        sed 's/.*\.//' | sort -u >"$work/named"
    sed -n '/no crate above names$/,$s/^pub mod //p' "$lib" | grep -Fx -f "$work/named" |
        sed "s|.*|$lib: another crate names & by its file: name its words by the list|" || :
    sed '/no crate above names$/,$d' "$lib" | sed -n 's/^pub mod //p' | grep -Fxv -f "$work/named" | while read -r it; do
        grep -q "^-- by their file.* $it\.{" "$lib" || echo "$lib: no crate above names $it: it stands below"
    done
done >>"$work/found"

# The same of proofs/: another crate names Offered.antt alone, and what the compiler writes beside a type: TheLaws and TheSendSync.
grep -rnoE --include='*.antt' --include='*.rt' 'Rattle\.(blink|index|show)_[a-z_]+\.proofs\.[^ ;{]*' crates/*/src crates/*/specs crates/*/proofs |
    awk -F: '{ split($1, at, "/"); split($3, word, "."); if (word[2] != at[2] && word[4] != "Offered" && $3 !~ /\.The(Laws|SendSync)(\.|$)/)
        print $1 ":" $2 ": names " $3 ", which stands in another crate: name it by Offered.antt" }' >>"$work/found"

# What changes a map: among the owners of handles these three functions call it, and these two take sessions that rest. So no call that reads,
# opens, joins, renews, closes or frees changes a key of its own accord, which no contract says of keys that the call doesn't name.
awk '
    FNR == 1 { name = "" }
    { sub(/[/][/].*/, "") }
    match($0, /(^|[^a-z_])fn [a-z_]+/) { name = substr($0, RSTART, RLENGTH); sub(/.*fn /, "", name) }
    /[a-z_)]\.(try_change|try_change_held|start|advance)\(|GrowingMap::(try_change|try_change_held|start|advance)\(/ {
        if ($0 !~ /(self|owner|get\(\))\.(try_change|advance)\(/ && name !~ /^(change_in_place|start_change|step)$/)
            print FILENAME ":" FNR ": " name " changes a map: only change_in_place, start_change and step do"
    }
    /\.(join|join_all|take_session)\(|Places::(join|join_all|take_session)\(/ {
        if (name !~ /^(join|gather|blink_map_join|blink_map_join_alone|blink_reader_join)$/)
            print FILENAME ":" FNR ": " name " takes a session that rests: only join and gather do"
    }' crates/blink_handles/src/*.rt crates/blink_c/src/*.rt >>"$work/found"

# Rooms: C, Rust and Python count the same for a session, page numbers for a draw and for an insertion's 22.
drawn=$(sed -n 's/^pub(crate) const PAGE_CHUNK: u64 = \([0-9]*\);/\1/p' crates/blink_generation/src/waiting.rt)
for it in include/blink.h rust/blink/src/map.rs python/blink.py; do
    counted=$(sed -n 's/.* + \([0-9]*\) \* .*sessions.*/\1/p' "$it" | sort -u | paste -s -d ' ' -)
    [ "$counted" = "300 $((drawn + 22))" ] || echo "$it: a room counts '$counted' for a session, not 300 rows and $((drawn + 22)) page numbers"
done >>"$work/found"

# Widths: what follows from a row's words stands in each text that tells it.
words=$(sed -n 's/^pub const ROW_WORDS: usize = \([0-9]*\);/\1/p' crates/blink_rows/src/limits.rt)
most_rows=$(sed -n 's/^pub const MAX_ROWS_PER_INSERT: u64 = \([0-9]*\);/\1/p' crates/blink_rows/src/limits.rt)
row=$((8 * words))
insertion=$(((most_rows * row + 22 * 16 + 500) / 1000))
session=$((((drawn + 22) * 16 + (2 * (drawn + 22) + 300) * row + 500) / 1000))
while read -r text pages; do
    for page in $pages; do
        grep -qF "$(echo "$text" | tr _ ' ')" "$page" || echo "$page: doesn't say $(echo "$text" | tr _ ' '), as follows from rows of $words words"
    done
done >>"$work/found" <<TEXTS
${words}_words docs/BOOK.md docs/FORMATS.md docs/GLOSSARY.md docs/pictures/draw.py
${row}_bytes rust/blink/src/map.rs crates/blink_live/src/open.rt
|_$row; docs/CHOOSING.md
${insertion}_KB docs/FORMATS.md bench/README.md crates/blink_live/src/open.rt crates/blink_settings/src/settings.rt .ci/settings.sh
|_$session,000 docs/CHOOSING.md
0.$(((session + 50) / 100))_MB include/blink.h rust/blink/src/map.rs
TEXTS

# Tries: C, Rust and Python take the same number of steps in vain, at first and at most, and yield as often before they sleep.
for it in TRIES MOST_TRIES YIELDS; do
    sed -n "s/^#define BLINK_$it \([0-9]*\)\$/\1 in C/p" include/blink.h
    sed -n "s/^pub(crate) const $it: u32 = \([0-9_]*\);\$/\1 in Rust/p" rust/blink/src/waiting.rs | tr -d _
    sed -n "s/^_$it = \([0-9_]*\)\$/\1 in Python/p" python/blink.py | tr -d _
done | awk '{ told[NR] = $0; number[NR] = $1 }
    END { for (at = 1; at <= 9; at++) if (!(at in number) || number[at] != number[at - (at - 1) % 3]) wrong = 1
        if (wrong) { line = "include/blink.h: tries of calls that wait:"; for (at = 1; at <= NR; at++) line = line " " told[at] ","; print line " and not three times three equal ones" } }' >>"$work/found"

# Lengths: CHANGING.md tells them as they are above.
for it in "$most_lines lines" "$(echo $most_words | sed 's/...$/,&/') words" "$most_in_cell words"; do
    grep -q "at most $it" docs/CHANGING.md || echo "docs/CHANGING.md: doesn't say that a text has at most $it"
done >>"$work/found"

# Pictures: they are what their script draws, the frames those of the tour, and the crates those of crates.txt. Figures that are quoted of the
# tables are those of today's. Names stand in the files that are named for them. The tour's pictures were made of its pages as they are.
if command -v python3 >/dev/null; then
    python3 docs/pictures/draw.py check >>"$work/found"
    python3 docs/figures.py check >>"$work/found"
    python3 docs/places.py >>"$work/found"
fi
(cd examples/tour && sha256sum --check --quiet pictures/SUMS 2>/dev/null) |
    sed 's|^\([^:]*\):.*|examples/tour/\1: its pictures were made of another page: run examples/tools/see.sh|' >>"$work/found"

# Names: with an underscore, or with capital and small letters. Each stands in some source or file name; this script is none.
{
    grep -v '^docs/' "$work/files" | tr '\n' '\0' | xargs -0 cat
    cat "$work/files"
} | tr -cs 'A-Za-z0-9_' '\n' | sort -u >"$work/words"
sed 's/^\([^:]*:[0-9]*\):.*/\1/' "$work/quoted" >"$work/places"
sed 's/^[^:]*:[0-9]*://; s/[^A-Za-z0-9_]/ /g' "$work/quoted" | paste "$work/places" - | awk -v words="$work/words" '
    BEGIN { while ((getline word < words) > 0) known[word] = 1 }
    {
        for (i = 2; i <= NF; i++)
            if (($i ~ /_/ || $i ~ /^[A-Z].*[a-z]/) && $i ~ /[a-zA-Z].*[a-zA-Z]/ && length($i) > 2 && !($i in known))
                print $1 ": no such name: " $i
    }' | sort -u >>"$work/found"

[ ! -s "$work/found" ] && exit 0
sort -u "$work/found" | sort -s -t: -k1,1 -k2,2n
exit 1
