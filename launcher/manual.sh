#!/usr/bin/env bash
# Makes docs/creduce.1, the manual page, of help.txt: launcher/manual.sh >docs/creduce.1
set -eu
awk '
    function quoted(text) { gsub(/\\/, "\\\\", text); gsub(/-/, "\\-", text); sub(/^[.'"'"']/, "\\\\\\&&", text); return text }
    function flush() { if (entry != "") { print ".TP\n.B " quoted(entry) "\n" quoted(text) } else if (text != "") print ".PP\n" quoted(text); entry = text = "" }
    BEGIN { print ".\\\" Made of launcher/help.txt by launcher/manual.sh\n.TH CREDUCE 1\n.SH NAME\ncreduce \\- shrinks a C program while a test keeps saying yes\n.SH DESCRIPTION" }
    /^$/ { flush(); next }
    /^[A-Z ]+$/ { flush(); print ".SH " $0; next }
    /^  [^ ]/ && substr($0, 19, 2) == "  " { flush(); entry = substr($0, 3, 18); sub(/ +$/, "", entry); text = substr($0, 21); next }
    { line = $0; sub(/^ +/, "", line); text = text (text == "" ? "" : " ") line }
    END { flush() }' "$(dirname "${BASH_SOURCE[0]}")/help.txt"
