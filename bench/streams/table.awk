# The best times of streams as a table in Markdown, in milliseconds: C, `recode` of each message by itself, and a relay
# in pieces of several lengths, with the ratio to `recode`. It ends with an error if the sums of one direction differ.
{
    match($2, /_to_[a-z]+$/)
    way = substr($2, RSTART + 4)
    name = $1 == "plain" ? "plain" : substr($2, 1, RSTART - 1)
    key = name " " way
    time = $3; total = $4
    if (!(key in best) || time < best[key]) best[key] = time
    if ((way in total_of) && total_of[way] != total) wrong = wrong $2 ": the sums differ\n"
    total_of[way] = total
    if (!(way in seen)) { seen[way] = 1; order[++n] = way }
}
function ms(key) { return sprintf("%.0f", best[key] / 1000) }
function beside(name, way) { return sprintf("%s (%.2f)", ms(name " " way), best[name " " way] / best["recode " way]) }
END {
    if (n == 0) wrong = "no work was timed\n"
    if (wrong) { printf "%s", wrong; exit 1 }
    print "| Messages | C | `recode` | pieces of 16 | of 256 | of 4096 | one piece |"
    print "|---|---|---|---|---|---|---|"
    for (i = 1; i <= n; i++) {
        way = order[i]
        printf "| 10^6 sequences to %s | %s | %s | %s | %s | %s | %s |\n", toupper(way), ms("plain " way), ms("recode " way), beside("pieces_16", way), beside("pieces_256", way), beside("pieces_4096", way), beside("whole", way)
    }
}
