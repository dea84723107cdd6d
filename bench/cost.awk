# The instructions of each work as tables in Markdown: for each set of rules, those of plain C, those of the proved code
# and the ratio; for UPER also those of asn1c, if it was run. A translation is compared with one read and one write by
# themselves. It ends with an error if the sums of a work differ, or if a program did not print a work.
BEGIN {
    text["sequences"] = "a sequence"
    text["list"] = "a number of a list"
    text["octets"] = "an octet of an OCTET STRING"
    text["booleans"] = "a BOOLEAN of a list"
    text["numbers_16"] = "an INTEGER (0..65535) of a list"
    text["numbers_64"] = "an INTEGER (0..2^64 - 1) of a list"
    text["integers"] = "an INTEGER of 1 to 7 octets of a list"
    text["items"] = "an ENUMERATED of a list"
    text["bit_strings"] = "a BIT STRING of up to 125 bits of a list"
    text["octet_strings"] = "an OCTET STRING of up to 16 octets of a list"
    text["visible_strings"] = "a VisibleString of up to 16 characters of a list"
    text["digits"] = "a VisibleString (FROM (\"0\"..\"9\")) (SIZE (0..16)) of a list"
    text["utf8_strings"] = "a UTF8String of up to 16 octets of a list"
    text["identifiers"] = "an OBJECT IDENTIFIER of 5 arcs of a list"
    text["choices"] = "a choice of 20 alternatives"
    text["additions"] = "a sequence with 3 of 8 additions"
    text["bags_1000"] = "a number of bags of 10^3"
    text["bags_10000"] = "a number of bags of 10^4"
    text["_to_uper"] = "COER to UPER"
    text["_to_coer"] = "UPER to COER"
    text["_to_aper"] = "OER to APER"
    text["_to_oer"] = "APER to OER"
    head["coer"] = "COER"; head["oer"] = "OER"; head["uper"] = "UPER"; head["aper"] = "APER"
}
$3 ~ /bags_100000$/ { next }
{
    units = $3 ~ /octets$/ ? int(64 * 1024 * 1024 / 100) : 10000
    cost[$1, $2, $3] = $4 / units
    if (($2, $3) in sum && sum[$2, $3] != $5) wrong = wrong $2 " " $3 ": the sums differ\n"
    sum[$2, $3] = $5
    if (!($3 in seen)) { seen[$3] = 1; order[++n] = $3 }
    if ($2 in head && !($2 in ruled)) { ruled[$2] = 1; column[++columns] = $2 }
    if ($1 == "asn1c") generated = 1
}
function per(x) { return sprintf(x < 9.95 ? "%.2f" : "%.0f", x) }
function cells(rules, name,   c, here) {
    c = cost["plain", rules, name]
    here = cost["proved", rules, name]
    return c ? sprintf("%s / %s / %.1f", per(c), per(here), here / c) : ""
}
function words(name,   kind, done) {
    kind = name; sub(/^[a-z]+_/, "", kind)
    done = name ~ /^write_/ ? "written" : name ~ /^read_/ ? "read" : "translated"
    if (match(kind, /_to_[a-z]+$/)) done = done ", " text[substr(kind, RSTART)]
    sub(/_to_[a-z]+$/, "", kind)
    return text[kind] " " done
}
function row(name,   i, line) {
    line = "| " words(name) " |"
    for (i = 1; i <= columns; i++) {
        line = line " " cells(column[i], name) " |"
        if (generated && column[i] == "uper") line = line " " (("asn1c", "uper", name) in cost ? per(cost["asn1c", "uper", name]) : "") " |"
    }
    print line
}
function translation(rules, name,   kind, get, put, c, here) {
    kind = name; sub(/^recode_/, "", kind)
    get = cost["proved", rules, "read_" kind]
    put = cost["proved", rules, "write_" kind]
    c = cost["plain", rules, name]
    here = cost["proved", rules, name]
    printf "| %s | %s | %s | %.1f | %s | %s | %.2f |\n", words(name), per(c), per(here), here / c, per(get), per(put), here / (get + put)
}
END {
    if (n == 0) wrong = "no work was counted\n"
    for (key in sum) {
        split(key, parts, SUBSEP)
        is_translation = parts[1] ~ /^recode/
        if (!(("proved", parts[1], parts[2]) in cost) || !(("plain", parts[1], parts[2]) in cost) && (!is_translation || parts[2] ~ /^recode_/))
            wrong = wrong parts[1] " " parts[2] ": one program lacks it\n"
    }
    if (wrong) { printf "%s", wrong; exit 1 }
    if (columns) {
        line = "| Work |"; rule = "|---|"
        for (i = 1; i <= columns; i++) {
            line = line " " head[column[i]] " |"; rule = rule "---|"
            if (generated && column[i] == "uper") { line = line " asn1c |"; rule = rule "---|" }
        }
        print line "\n" rule
        for (i = 1; i <= n; i++) if (order[i] !~ /_to_/) row(order[i])
        print ""
    }
    for (i = 1; i <= n; i++) if (order[i] ~ /^recode_/) {
        if (!translations++) print "| Work | C | `recode` | ratio | read by itself | written by itself | `recode` to both |\n|---|---|---|---|---|---|---|"
        translation(order[i] ~ /_to_(uper|coer)$/ ? "recode" : "recode_aligned", order[i])
    }
}
