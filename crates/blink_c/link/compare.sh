#!/bin/sh
# Compares include/blink.h and blink_bindings.h with the exports of src/: their names, the number, order and widths of their parameters, what they return,
# and the structs of numbers, and the numbers of kinds and codes, of blink_handles. It prints a line for each finding and exits 1, or
# prints nothing and exits 0. The C compiler does the comparison: what the sources say is declared once more beside the header. Without
# a compiler only the names are compared.
#
#     compare.sh [LIBRARY ..]    also looks whether each library exports exactly these names, and those of include/version.c and pause.c
LC_ALL=C
export LC_ALL
here=$(cd "$(dirname "$0")/.." && pwd) || exit 1
header=$here/../../include
work=$(mktemp -d) || exit 1
trap 'rm -rf "$work"' EXIT

# Each export as a line `NAME|RESULT|PARAMETER, PARAMETER ..|KEPT`, in the words of src/. KEPT is the handle that it is proved to leave as
# it was, by the clause `same`; a map's isn't const in C, since its inline functions take it out for a while.
cat "$here"/src/*.rt | awk '
    /^pub extern "C" fn / { text = ""; kept = ""; on = 1 }
    on && text !~ /\)/ { text = text " " $0 }
    on && /^ *ensures same \{ (index|reader|session)\.new\.value / { kept = $4; sub(/\..*/, "", kept) }
    on && /\{$/ {
        on = 0
        sub(/^ *pub extern "C" fn /, "", text)
        name = text; sub(/\(.*/, "", name)
        result = text; if (!sub(/.*\) -> /, "", result)) result = "()"
        sub(/ *\{.*/, "", result)
        params = text; sub(/^[^(]*\(/, "", params); sub(/\)[^)]*$/, "", params); sub(/, *$/, "", params)
        print name "|" result "|" params "|" kept
    }' | sort >"$work/exports"

# The same as C declares it.
sed 's/|/ | /g' "$work/exports" | awk -F ' [|] ' '
    BEGIN {
        c["Code"] = "int"; c["u8"] = "uint8_t"; c["u32"] = "uint32_t"; c["u64"] = "uint64_t"; c["usize"] = "size_t"; c["bool"] = "bool"
        c["()"] = "void"; c["RawEntry"] = c["Entry"] = "blink_entry"; c["RawOperation"] = "blink_operation"; c["RawAnswer"] = "blink_answer"
        c["RawScanned"] = "blink_scanned"; c["RawTaken"] = "blink_taken"; c["RawStock"] = "blink_reserve"
        c["IndexHandle"] = c["IndexSlot"] = "blink_index"
        c["MapHandle"] = c["MapSlot"] = "blink_map"
        c["SessionHandle"] = c["SessionSlot"] = "blink_session"; c["ReaderHandle"] = c["ReaderSlot"] = "blink_reader"
    }
    {
        n = split($3, parts, /, */)
        line = c[$2] " " $1 "("
        comma = ""
        for (i = 1; i <= n; i++) {
            type = parts[i]; sub(/^ *[a-z_]+: /, "", type); sub(/ *$/, "", type)
            name = parts[i]; sub(/^ */, "", name); sub(/:.*/, "", name)
            if (type == "Global" || type == "") continue
            if (type ~ /^&mut \[/) { gsub(/^&mut \[|\]$/, "", type); said = c[type] " *, size_t" }
            else if (type ~ /^&\[/) { gsub(/^&\[|\]$/, "", type); said = "const " c[type] " *, size_t" }
            else if (type ~ /^&mut /) { sub(/^&mut /, "", type); said = (name == $4 ? "const " : "") c[type] " *" }
            else said = c[type]
            line = line comma said
            comma = ", "
        }
        print line (comma == "" ? "void" : "") ");"
    }' >"$work/prototypes"

# The names in the headers, but those of inline functions.
sed -n 's/^static inline [^(]*[ *]\(blink_[a-z_]*\)(.*/\1/p' "$header/blink.h" | sort -u >"$work/inline"
cat "$header/blink.h" "$header/blink_bindings.h" | grep -oE '\bblink_(index|reader|map|session)_[a-z_]+\(' | tr -d '(' | sort -u |
    comm -23 - "$work/inline" >"$work/declared"
cut -d"|" -f1 "$work/exports" | sort >"$work/names"
diff "$work/names" "$work/declared" | sed -n 's/^< \(.*\)/include: no header has \1/p; s/^> \(.*\)/include: no export \1/p' >>"$work/found"

# Each code of the header has a text.
awk '/^enum \{/ { on = 1 } /^\};/ { on = 0 } on { print }' "$header/blink.h" | awk '/BLINK_DONE = 0/ { on = 1 } on' | grep -oE '^ *BLINK_[A-Z_]+' | tr -d ' ' |
    while read -r name; do
        grep -q "case $name: return \"" "$header/blink.h" || echo "include/blink.h: blink_message lacks $name" >>"$work/found"
    done

# A number of the sources or of a definition, and the name that the header gives it.
number() {
    if [ -z "$2" ]; then
        echo "crates/blink_c/link/compare.sh: no number for $1" >>"$work/found"
    else
        echo "_Static_assert($1 == $2, \"$1 is $2\");"
    fi
}
constant() { sed -n "s/.*const $2: [A-Za-z0-9]* = \([0-9]*\);.*/\1/p" "$here/$1"; }
code() { sed -n "s/^code_of[a-z_]* (*$2[ a-z)]* *= \([0-9]*\)$/\1/p" "$here/$1"; }

{
    echo '#include "blink.h"'
    cat "$work/prototypes"
    for it in GET:FIND REMOVE:DELETE INSERT REPLACE ABSENT FOUND INSERTED EXISTS REMOVED REPLACED; do
        number "BLINK_${it%:*}" "$(constant ../blink_handles/src/raw.rt "${it#*:}")"
    done
    number BLINK_DONE "$(constant ../blink_handles/src/refusal.rt DONE)"
    number BLINK_BATCH_LIMIT "$(constant ../blink_batch/src/batch.rt BATCH_LIMIT)"
    while read -r name file word; do
        number "BLINK_$name" "$(code "$file" "$word")"
    done <<'WORDS'
TOO_MANY ../blink_handles/specs/Codes.antt TooMany
WRONG_LENGTH ../blink_handles/specs/Codes.antt WrongLength
UNKNOWN_OPERATION ../blink_handles/specs/Codes.antt UnknownOperation
INDEX_TOO_LARGE ../blink_handles/specs/Codes.antt TooLarge
BAD_FAN ../blink_handles/specs/Codes.antt BadFan
NO_MEMORY ../blink_handles/specs/Codes.antt OutOfMemory
NOT_ASCENDING ../blink_index/specs/Codes.antt SortedError.NotAscending
SHARED ../blink_handles/specs/Codes.antt Shared
NO_MEMORY ../blink_handles/specs/MapCodes.antt OutOfMemory
MAP_TOO_LARGE ../blink_handles/specs/MapCodes.antt TooLarge
BAD_SESSIONS ../blink_handles/specs/MapCodes.antt Sessions
NO_SESSION ../blink_handles/specs/MapCodes.antt NoSession
PENDING ../blink_handles/specs/MapCodes.antt UnderWay
IDLE ../blink_handles/specs/MapCodes.antt Idle
FULL ../blink_handles/specs/MapCodes.antt Full
SESSION_MISSING ../blink_handles/specs/MapCodes.antt Missing
MAP_CLOSED ../blink_handles/specs/MapCodes.antt Closed
ROWS_BUSY ../blink_handles/specs/MapCodes.antt RowsBusy
RENEWING ../blink_handles/specs/MapCodes.antt Busy
WORDS
    # The structs of numbers, field by field.
    awk '/^pub struct (Raw|Entry)/ { name = $3; on = 1; print "struct " name " {"; next }
        on && /^}/ { on = 0; print "};" }
        on { sub(/^ *pub /, ""); sub(/,$/, ""); split($0, f, ": "); print "uint" substr(f[2], 2) "_t " f[1] ";" }' "$here/../blink_handles/src/raw.rt" "$here/../blink_operation/src/entry.rt"
    for it in "RawEntry blink_entry key pointer" "Entry blink_entry key pointer" "RawScanned blink_scanned filled more next" "RawTaken blink_taken taken there" "RawStock blink_reserve pages unwritten free taken_out waiting" "RawOperation blink_operation kind key pointer" "RawAnswer blink_answer kind pointer"; do
        # shellcheck disable=SC2086
        set -- $it "" "$@"
        raw=$1
        said=$2
        shift 2
        echo "_Static_assert(sizeof(struct $raw) == sizeof($said), \"$said is as large as $raw\");"
        while [ -n "$1" ]; do
            echo "_Static_assert(offsetof(struct $raw, $1) == offsetof($said, $1), \"$said.$1\");"
            shift
        done
        shift
    done
} >"$work/compare.c"

cc=${CC:-cc}
if command -v "$cc" >/dev/null; then
    "$cc" -std=c11 -Wall -Wextra -Werror -I "$header" -fsyntax-only "$work/compare.c" >>"$work/found" 2>&1
    # the second header alone, which includes the first
    echo '#include "blink_bindings.h"' >"$work/bindings.c"
    "$cc" -std=c11 -Wall -Wextra -Werror -I "$header" -fsyntax-only "$work/bindings.c" >>"$work/found" 2>&1
    if echo 'int main() { return 0; }' >"$work/c.cpp" && "$cc" -x c++ -fsyntax-only "$work/c.cpp" 2>/dev/null; then
        echo '#include "blink.h"' >"$work/cpp.cpp"
        "$cc" -x c++ -Wall -Wextra -Werror -I "$header" -fsyntax-only "$work/cpp.cpp" >>"$work/found" 2>&1
    fi
fi

for library in "$@"; do
    case $library in
        *.so) nm -D --defined-only "$library" ;;
        *) nm -g --defined-only "$library" ;;
    esac | awk 'NF == 3 && $3 != "blink_version" && $3 != "blink_pause" { print $3 }' | sort >"$work/there"
    diff "$work/names" "$work/there" | sed -n "s|^< \(.*\)|$library: lacks \1|p; s|^> \(.*\)|$library: \1 is no export|p" >>"$work/found"
done

[ ! -s "$work/found" ] && exit 0
cat "$work/found"
[ $# -eq 0 ] || echo "Where names are lacking, $* was built of other sources than these: ./libblink builds it again, where rt is."
exit 1
