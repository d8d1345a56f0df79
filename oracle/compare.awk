# Compares what the program cases printed with what is expected, case by case.
# usage: awk -v expected=FILE -v got=FILE [-v kinds=FILE -v cases=FILE] -f compare.awk
# kinds has a line for each case: its kind, and where in the file cases its bytes begin and how many they are.
# A case's expected lines may end with PARTED: argmin's S4 asks a NaN there, and 02's request 4 goes on. The program is
# to ask a step or to come to its limit there, and what it prints from there on is not argmin's.
# Status: 0 where all agree, 1 otherwise.

# The next case's lines, and how many; the line CASE that ends one case is kept for the next.
function next_case(file, lines,    n, line) {
    n = 0
    if (file in ahead) {
        lines[++n] = ahead[file]
        delete ahead[file]
    }
    while ((getline line < file) > 0) {
        if (n && substr(line, 1, 5) == "CASE ") {
            ahead[file] = line
            break
        }
        lines[++n] = line
    }
    return n
}

function show(    i) {
    printf "disagreement in case %d%s (- expected, + printed)\n", total, kind ? ", " kind : ""
    if (kind)
        system("od -A n -v -t x1 -j " where[2] " -N " where[3] " '" cases "'")
    for (i = 1; i <= n || i <= m; i++)
        if (i <= n && i <= m && e[i] == g[i])
            print "  " g[i]
        else {
            if (i <= n)
                print "- " e[i]
            if (i <= m)
                print "+ " g[i]
        }
}

BEGIN {
    while (1) {
        n = next_case(expected, e)
        m = next_case(got, g)
        if (!n && !m)
            break
        total++
        kind = ""
        if (kinds && (getline note < kinds) > 0) {
            split(note, where, " ")
            kind = where[1]
            if (!(kind in of_kind))
                order[++sorts] = kind
            of_kind[kind]++
        }
        parts = e[n] == "PARTED"
        agree = parts ? n <= m && g[n] ~ /^(ASK|LIMIT) / : n == m
        refused = 0
        for (i = 1; i <= n; i++) {
            if (agree && e[i] != g[i] && !(parts && i == n))
                agree = 0
            if (substr(e[i], 1, 4) == "ASK ")
                asks++
            else if (substr(e[i], 1, 8) == "REFUSED ") {
                told[e[i]]++
                if (e[i] != "REFUSED 8")
                    refused = 1
            } else if (substr(e[i], 1, 6) == "LIMIT ")
                told["LIMIT"]++
            else if (substr(e[i], 1, 5) == "STOP ") {
                split(e[i], word, " ")
                told["STOP " word[2]]++
            }
        }
        if (parts)
            onward += agree
        else if (!refused) {
            within++
            within_kind[kind]++
        }
        if (!agree) {
            wrong++
            wrong_kind[kind]++
            if (wrong <= 3)
                show()
        }
    }
    if (sorts) {
        printf "%-14s %9s %9s %14s\n", "kind", "cases", "within", "disagreements"
        for (i = 1; i <= sorts; i++)
            printf "%-14s %9d %9d %14d\n", order[i], of_kind[order[i]], within_kind[order[i]], wrong_kind[order[i]]
    }
    line = "ASK: " asks + 0
    count = split("STOP wolfe;STOP approximate;STOP met;LIMIT", names, ";")
    for (i = 2; i <= 8; i++)
        names[++count] = "REFUSED " i
    for (i = 1; i <= count; i++)
        line = line "; " names[i] ": " told[names[i]] + 0
    print line
    printf "%d went on where argmin's S4 asks a NaN for equal steps (02, request 4)\n", onward
    printf "%d cases, %d of them within demand 2's domain: %d disagreements\n", total, within, wrong
    exit wrong || !total
}
