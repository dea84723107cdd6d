# The best time of each work as a table in Markdown: in milliseconds of plain C and of the proved code, the ratio, and
# that of asn1c if it was run. After it, for SET OF with n elements, nanoseconds per element divided by log2 n. A
# translation is compared with one read and one write by themselves. It ends with an error if the sums of a work differ,
# or if a program did not print a work.
BEGIN {
    text["append_fields"] = "10^7 fields of 1 to 128 bits appended"
    text["read_fields"] = "the same fields read"
    text["append_octets_0"] = "64 MiB appended at bit 0"
    text["append_octets_3"] = "64 MiB appended at bit 3"
    text["read_octets_0"] = "64 MiB copied from bit 0"
    text["read_octets_3"] = "64 MiB copied from bit 3"
    text["sequences"] = "10^6 sequences"
    text["list"] = "a list of 10^6 numbers"
    text["octets"] = "64 MiB in an OCTET STRING"
    text["booleans"] = "10^6 in lists of BOOLEAN"
    text["numbers_16"] = "10^6 in lists of INTEGER (0..65535)"
    text["numbers_64"] = "10^6 in lists of INTEGER (0..2^64 - 1)"
    text["integers"] = "10^6 in lists of INTEGER of 1 to 7 octets"
    text["items"] = "10^6 in lists of ENUMERATED"
    text["bit_strings"] = "10^6 in lists of BIT STRING of up to 125 bits"
    text["octet_strings"] = "10^6 in lists of OCTET STRING of up to 16 octets"
    text["visible_strings"] = "10^6 in lists of VisibleString of up to 16 characters"
    text["digits"] = "10^6 in lists of VisibleString (FROM (\"0\"..\"9\")) (SIZE (0..16))"
    text["utf8_strings"] = "10^6 in lists of UTF8String of up to 16 octets"
    text["identifiers"] = "10^6 in lists of OBJECT IDENTIFIER of 5 arcs"
    text["choices"] = "10^6 choices of 20 alternatives"
    text["additions"] = "10^6 sequences with 3 of 8 additions"
    text["bags_1000"] = "10^3 bags of 10^3 numbers"
    text["bags_10000"] = "10^2 bags of 10^4 numbers"
    text["bags_100000"] = "10 bags of 10^5 numbers"
    text["_to_uper"] = "COER to UPER"
    text["_to_coer"] = "UPER to COER"
    text["_to_aper"] = "OER to APER"
    text["_to_oer"] = "APER to OER"
}
{
    key = $1 " " $2
    if (!(key in best) || $3 < best[key]) best[key] = $3
    if (($2 in sum) && sum[$2] != $4) wrong = wrong $2 ": the sums differ\n"
    sum[$2] = $4
    if (!($2 in seen)) { seen[$2] = 1; order[++n] = $2 }
    if ($1 == "asn1c") generated = 1
    if ($2 ~ /^recode_/) recodes = 1
}
function ms(key,   time) { time = best[key] * (scale ? scale : 1); return key in best ? sprintf(time < 9950 ? "%.1f" : "%.0f", time / 1000) : "" }
function ratio(a, b) { return best[b] ? sprintf("%.2f", best[a] / best[b]) : "" }
function words(name,   kind, done) {
    if (name in text) return text[name]
    kind = name; sub(/^[a-z]+_/, "", kind)
    done = name ~ /^write_/ ? "written" : name ~ /^read_/ ? "read" : "translated"
    if (match(kind, /_to_[a-z]+$/)) done = done ", " text[substr(kind, RSTART)]
    sub(/_to_[a-z]+$/, "", kind)
    return text[kind] " " done
}
function row(name) {
    printf "| %s | %s | %s | %s |", words(name), ms("plain " name), ms("proved " name), ratio("proved " name, "plain " name)
    print generated ? " " ms("asn1c " name) " |" : ""
}
function translation(name,   kind, both) {
    kind = name; sub(/^recode_/, "", kind)
    both = best["proved read_" kind] + best["proved write_" kind]
    printf "| %s | %s | %s | %s | %s | %s | %.2f |\n", words(name), ms("plain " name), ms("proved " name), ratio("proved " name, "plain " name), ms("proved read_" kind), ms("proved write_" kind), best["proved " name] / both
}
function growth(name, who,   count) {
    count = name; sub(/.*_/, "", count)
    return sprintf("%.2f", best[who " " name] / 1000 / (log(count) / log(2)))
}
END {
    for (i = 1; i <= n; i++) {
        name = order[i]
        if (!(("proved " name) in best) || !(("plain " name) in best) && (name ~ /^recode_/ || !recodes)) wrong = wrong name ": one program lacks it\n"
    }
    if (n == 0) wrong = "no work was timed\n"
    if (wrong) { printf "%s", wrong; exit 1 }
    if (recodes) {
        print "| Work | C | `recode` | ratio | read by itself | written by itself | `recode` to both |"
        print "|---|---|---|---|---|---|---|"
        for (i = 1; i <= n; i++) if (order[i] ~ /^recode_/) translation(order[i])
        exit
    }
    print generated ? "| Work | C | here | ratio | asn1c |" : "| Work | C | here | ratio |"
    print generated ? "|---|---|---|---|---|" : "|---|---|---|---|"
    for (i = 1; i <= n; i++) row(order[i])
    for (i = 1; i <= n; i++) if (order[i] ~ /^write_bags_[0-9]+$/) {
        if (!bags++) print "\n| Nanoseconds for a member, divided by log2 n | C | here |\n|---|---|---|"
        printf "| %s | %s | %s |\n", words(order[i]), growth(order[i], "plain"), growth(order[i], "proved")
    }
}
