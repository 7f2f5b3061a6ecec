# A reader of a few rules in AWK, to be held against ours (docs/CHECK-US.md): the line count, the fixed texts, lines that
# must be filled, and too many characters of a name. It knows no check digits, so it is bound to differ.
#
#     LC_ALL=C awk -f reader.awk FILE...        a line for each file: name, accepted or refused, number, line

function characters(text,   rest) { # bytes other than 80 to BF
    rest = text
    gsub(/[\200-\277]/, "", rest)
    return length(rest)
}

function judged(   i, fixed, filled, n) {
    if (count < 31 || count > 34) return "refused\t5\t" count
    n = split("1 SPC 2 0200 3 1 31 EPD", fixed, " ")
    for (i = 1; i <= n; i += 2) text[fixed[i]] = fixed[i + 1]
    split("4 5 6 9 10 11 20 28", filled, " ")
    for (i in filled) must[filled[i]] = 1
    for (i = 1; i <= count; i++) {
        if (i in text && line[i] != text[i]) return "refused\t6\t" i
        if (i in must && line[i] == "") return "refused\t8\t" i
        if (i == 6 && characters(line[i]) > 70) return "refused\t9\t" i
    }
    return "accepted\t0\t" count
}

function tell() { if (name != "") print name "\t" judged() }

FNR == 1 { tell(); name = FILENAME; count = 0; split("", line) }
{ sub(/\r$/, ""); line[++count] = $0 }
END { tell() }
