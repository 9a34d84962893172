# The report of a log as one would write it in awk. It tests the fields, the counting and the outcomes, and neither a
# number's leading zeros nor the last line feed.
BEGIN {
    FS = OFS = "\t"
    for (k = split("0 1 2 3 4 5 6 7 8 n c -", outcome, " "); k; k--) seen[outcome[k]] = 0
}
NR == 1 && $1 == "channel" && NF == 2 && 1 <= $2 && $2 <= 204 { channel = $2; next }
NR == 1 || $1 != NR - 1 || !($2 in seen) || NF != 2 || NR > 1000000 { bad = NR; exit }
{ seen[$2]++ }
END {
    if (bad || !NR) { print "refused", 12, (NR ? bad : 1); exit }
    for (k = 0; k <= 8; k++) { blocks += seen[k]; bits += k * seen[k] }
    print "khz", 87500 + 100 * channel
    print "slots", NR - 1
    print "read", blocks
    print "clean", seen[0]
    print "bits", bits
    print "noword", seen["n"]
    print "check", seen["c"]
    print "missing", seen["-"]
    print "mean", (blocks ? int(1000 * bits / blocks) : "-")
}
