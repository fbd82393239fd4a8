# Reads what `bench traced` says, and prints the instructions of each call, without those of asking. They are counted in a trace of
# each instruction among the lines that it says, or stand in the files that `dumps` begins the names of, one a call.
# An instruction that repeats itself, as those that set memory do, counts once in the trace.
function summary(file,    line, words) {
    while ((getline line < file) > 0)
        if (line ~ /^summary:/) { close(file); split(line, words, " "); return words[2] }
}
/^Trace/ { if ($4 != last) n++; last = $4; next }
/^begin$/ { n = 0; next }
/^end$/ {
    if (dumps) n = summary(dumps "." (ends + 1))
    if (++ends % 2) ours = n
    else if (ends == 2) { none[0] = ours; none[1] = n; printf "%-22s %6s %11s %11s %7s\n", "call", "gates", "ours", "theirs", "ratio" }
    else printf "%s %11d %11d %7.2f\n", label, ours - none[0], n - none[1], (ours - none[0]) / (n - none[1])
    next
}
{ label = $0; sub(/Trace.*/, "", label) }
