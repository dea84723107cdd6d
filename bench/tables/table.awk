# The lines that tables_bench prints, with what callgrind counted of each work, as a table: instructions of `recode`, of
# `recode_by` and their ratio, and the requests for memory of both for a message. It ends with an error if the sums differ.
function count(file,   line, parts, names, callee, name) {
    instructions = 0
    requests = 0
    while ((getline line < file) > 0) {
        if (line ~ /^totals: /) instructions = substr(line, 9)
        else if (line ~ /^c?fn=/) {
            match(line, /\([0-9]+\)/)
            name = substr(line, RSTART, RLENGTH)
            if (length(line) >= RSTART + RLENGTH) names[name] = substr(line, RSTART + RLENGTH + 1)
            if (line ~ /^c/) callee = names[name]
        } else if (line ~ /^calls=/ && callee ~ /^(malloc|calloc|realloc|aligned_alloc|posix_memalign)$/) {
            split(substr(line, 7), parts, " ")
            requests += parts[1]
        }
    }
    close(file)
}
{
    count(counted 2 * NR)
    kind = $1
    sub(/_.*/, "", kind)
    work = $1
    sub(/^[a-z]+_/, "", work)
    cost[kind, work] = instructions / $5
    asked[kind, work] = requests / $4
    sum[kind, work] = $3
    if (kind == "typed") order[++works] = work
    if (kind == "read") alone[++reads] = work
}
END {
    print "| Work | `recode` | `recode_by` | ratio | requests of `recode` | of `recode_by` |\n|---|---|---|---|---|---|"
    for (i = 1; i <= works; i++) {
        work = order[i]
        if (sum["typed", work] != sum["tabled", work]) { print work ": the sums differ"; exit 1 }
        typed = cost["typed", work]
        tabled = cost["tabled", work]
        gsub(/_/, " ", order[i])
        printf "| %s | %.0f | %.0f | %.2f | %.1f | %.1f |\n", order[i], typed, tabled, tabled / typed, asked["typed", work], asked["tabled", work]
    }
    print "\n| UPER by a table | read | written |\n|---|---|---|"
    for (i = 1; i <= reads; i++) {
        work = alone[i]
        name = work
        sub(/_.*/, "", name)
        printf "| %s | %.0f | %.0f |\n", name, cost["read", work], cost["written", work]
    }
    if (works == 0) { print "no work was counted"; exit 1 }
}
