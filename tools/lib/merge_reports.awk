# Puts reports together that `report` made of the same netlist, tests, start and budget, each of a part of the proofs: of a class
# the line that isn't `undetected`, and the total of these. It is the report of all these proofs.
#
#     awk -f tools/lib/merge_reports.awk REPORT..
$1 == "total" { next }
FNR > most { most = FNR; line[FNR] = $0; verdict[FNR] = $4; next }
FNR > 1 && $4 != "undetected" { line[FNR] = $0; verdict[FNR] = $4 }
END {
    print line[1]
    for (k = 2; k <= most; k++) {
        print line[k]
        if (verdict[k] != "as") { classes++; count[verdict[k]]++ }
    }
    printf "total %d detected %d untestable %d aborted %d", classes, count["detected"], count["untestable"], count["aborted"]
    if (count["undetectable"]) printf " undetectable %d", count["undetectable"]
    if (count["undetected"]) printf " undetected %d", count["undetected"]
    print ""
}
