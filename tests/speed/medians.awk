# Reads lines `PROGRAM WHAT NANOSECONDS` of three programs, ours, plain and table; prints medians and ratios, and whether the bar holds: ours takes at
# most 1.0 of table's time on each stream, and at most 1.1 on each command and each refusal alone. Ends with 1 where it does not hold.
function median(program, what,    n, i, at, value, sorted) {
    n = count[program, what]
    for (i = 1; i <= n; i++) {
        value = time[program, what, i]
        for (at = i; at > 1 && sorted[at - 1] > value; at--) sorted[at] = sorted[at - 1]
        sorted[at] = value
    }
    return n % 2 ? sorted[(n + 1) / 2] : (sorted[n / 2] + sorted[n / 2 + 1]) / 2
}
{
    if (!($2 in seen)) { seen[$2] = 1; order[++whats] = $2 }
    time[$1, $2, ++count[$1, $2]] = $3 + 0
}
END {
    printf "%-12s%10s%10s%10s%16s%14s\n", "", "ours", "plain", "table", "ours / better", "ours / table"
    for (i = 1; i <= whats; i++) {
        what = order[i]
        ours = median("ours", what); plain = median("plain", what); table = median("table", what)
        name = what !~ /^[0-9]/ ? what : what < 50 ? "refusal " what : "command " what
        printf "%-12s%10.1f%10.1f%10.1f%16.3f%14.3f\n", name, ours, plain, table, ours / (plain < table ? plain : table), ours / table
        if (what != "held" && ours > table * (what ~ /^[0-9]/ ? 1.1 : 1.0)) above = above sprintf(", %s %.3f", name, ours / table)
    }
    bar = "at most 1.0 of table on each stream and 1.1 on each command and refusal"
    print above == "" ? "the bar holds: " bar : "the bar does not hold (" bar "): " substr(above, 3)
    exit above != ""
}
