#!/bin/sh
# Writes docs/crates.svg: the crates of crates.txt, each above all that it names, with a line to each crate that no other one between them names.
set -eu
cd "$(dirname "$0")"

grep -v '^ *\(#\|$\)' ../crates.txt | awk -F': *' '
    # the crates of this repository in their order, and what each names
    { sub(/ .*/, "", $1); name[++n] = $1; known[$1] = 1; text[$1] = $2 }
    END {
        for (i = 1; i <= n; i++) {
            c = name[i]; m = split(text[c], words, / +/); height[c] = 0
            for (k = 1; k <= m; k++) if (words[k] in known) {
                d = words[k]; needs[c, d] = 1
                if (height[d] + 1 > height[c]) height[c] = height[d] + 1
            }
            if (height[c] > top) top = height[c]
        }
        # what is reached through another crate needs no line of its own
        for (i = 1; i <= n; i++) for (j = 1; j < i; j++) if ((name[i], name[j]) in needs) {
            for (k = j + 1; k < i; k++) if (((name[i], name[k]) in needs) && ((name[k], name[j]) in needs)) through[name[i], name[j]] = 1
        }
        for (i = 1; i <= n; i++) row[height[name[i]], ++wide[height[name[i]]]] = name[i]
        for (h = 0; h <= top; h++) if (wide[h] > most) most = wide[h]
        W = most * 150 + 20; H = (top + 1) * 62 + 20
        print "<svg xmlns=\047http://www.w3.org/2000/svg\047 width=\047" W "\047 height=\047" H "\047 viewBox=\0470 0 " W " " H "\047 font-family=\047sans-serif\047>"
        print "<rect width=\047" W "\047 height=\047" H "\047 fill=\047white\047/>"
        for (h = 0; h <= top; h++) for (k = 1; k <= wide[h]; k++) {
            c = row[h, k]; x[c] = W / 2 + (k - (wide[h] + 1) / 2) * 150; y[c] = H - 41 - h * 62
        }
        for (i = 1; i <= n; i++) for (j = 1; j < i; j++) if (((name[i], name[j]) in needs) && !((name[i], name[j]) in through))
            printf "<line x1=\047%d\047 y1=\047%d\047 x2=\047%d\047 y2=\047%d\047 stroke=\047#9aa\047/>\n", x[name[i]], y[name[i]] + 13, x[name[j]], y[name[j]] - 13
        for (i = 1; i <= n; i++) {
            c = name[i]
            printf "<rect x=\047%d\047 y=\047%d\047 width=\047136\047 height=\04726\047 rx=\0475\047 fill=\047%s\047 stroke=\047#33557a\047/>\n", x[c] - 68, y[c] - 13, colour(c)
            printf "<text x=\047%d\047 y=\047%d\047 font-size=\04711\047 text-anchor=\047middle\047>%s</text>\n", x[c], y[c] + 4, c
        }
        print "</svg>"
    }
    function colour(c) {
        if (c ~ /^operator_/) return "#fdf3e0"
        if (c ~ /^translat/) return "#eaf5ea"
        if (c ~ /^query/) return "#f3eaf7"
        if (c ~ /^sheet/) return "#fbeaea"
        return "#eef3fb"
    }' >crates.svg
