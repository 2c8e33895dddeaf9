#!/bin/sh
# Prints a page of the tour as one file, with the style and the script that the pages of the tour share, as `blink-show` writes it.
#
#     whole.sh PAGE.html
set -eu
page=$(cd "$(dirname "$0")/../../crates/show_main/page" && pwd)
awk -v page="$page" '
    function file(name,   line) { while ((getline line < (page "/" name)) > 0) print line; close(page "/" name) }
    $0 == "<link rel=\"stylesheet\" href=\"../../crates/show_main/page/page.css\">" { print "<style>"; file("page.css"); print "</style>"; next }
    $0 == "<script src=\"../../crates/show_main/page/page.js\"></script>" { print "<script>"; file("page.js"); print "</script>"; next }
    { print }
' "$1"
