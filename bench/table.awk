# Prints the table of the times: lines of a case, a program, a call and nanoseconds; the least of each counts.
function add(group, checked, unchecked) {
    if (!(group in counts)) group_names[++groups] = group
    to_checked[group] += log(checked)
    to_unchecked[group] += log(unchecked)
    counts[group]++
}

BEGIN {
    scale["t"] = "time"
    scale["g"] = "grade"
    scale["b"] = "time then grade"
}

$1 !~ /^random/ {
    key = $1 " " $3
    if (!(key in place)) { place[key] = ++keys; names[keys] = key }
    if (!((key, $2) in least) || $4 < least[key, $2]) least[key, $2] = $4
}

END {
    print "nanoseconds a call, and for day of its ninety calls together; a ratio of 1.00 or more says that the proved planner is at least as fast"
    print ""
    form = "%-16s %-6s %3s %11s %11s %11s %15s %17s\n"
    printf form, "case", "call", "n", "Rattle", "checked", "unchecked", "checked/Rattle", "unchecked/Rattle"
    for (i = 1; i <= keys; i++) {
        split(names[i], words, " ")
        parts = split(words[1], part, "-")
        n = parts == 4 ? part[3] : "-"
        name = parts == 4 ? part[1] " " part[2] " " part[4] : words[1]
        rattle = least[names[i], "rattle"]
        checked = least[names[i], "checked"] / rattle
        unchecked = least[names[i], "unchecked"] / rattle
        printf form, name, words[2], n, rattle, least[names[i], "checked"], least[names[i], "unchecked"], \
            sprintf("%.2f", checked), sprintf("%.2f", unchecked)
        add(words[2] ", all", checked, unchecked)
        if (n != "-") add(words[2] ", " scale[part[4]], checked, unchecked)
        if (n != "-") {
            row = name " " words[2]
            if (!(row in seen)) { seen[row] = 1; rows[++many] = row }
            at[row, n] = rattle
        }
    }
    print ""
    print "the geometric means of the ratios"
    print ""
    form = "%-28s %15s %17s\n"
    printf form, "call and scale", "checked/Rattle", "unchecked/Rattle"
    for (i = 1; i <= groups; i++) {
        group = group_names[i]
        printf form, group, sprintf("%.2f", exp(to_checked[group] / counts[group])), sprintf("%.2f", exp(to_unchecked[group] / counts[group]))
    }
    print ""
    print "how the cost of the proved planner grows with the places"
    print ""
    form = "%-24s %11s %11s %11s %8s %8s\n"
    printf form, "case and call", "6", "12", "24", "12/6", "24/12"
    for (i = 1; i <= many; i++) {
        row = rows[i]
        printf form, row, at[row, 6], at[row, 12], at[row, 24], \
            sprintf("%.1f", at[row, 12] / at[row, 6]), sprintf("%.1f", at[row, 24] / at[row, 12])
    }
}
