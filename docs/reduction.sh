#!/bin/sh
# Writes docs/reduction.svg: the reduction of the sample's drawing, step by step, as the README shows it.
set -eu
cd "$(dirname "$0")"

node() { # x y name register
    echo "<circle cx='$1' cy='$2' r='24' fill='#eef3fb' stroke='#33557a' stroke-width='1.5'/>"
    echo "<text x='$1' y='$(($2 - 2))' class='n'>$3</text><text x='$1' y='$(($2 + 13))' class='r'>register $4</text>"
}
arrow() { # x1 x2 y register
    echo "<line x1='$(($1 + 25))' y1='$3' x2='$(($2 - 31))' y2='$3' stroke='#7a5533' stroke-width='1.5' marker-end='url(#tip)'/>"
    echo "<text x='$((($1 + $2) / 2))' y='$(($3 - 8))' class='r'>register $4</text>"
}
title() { # y text
    echo "<text x='20' y='$1' class='t'>$2</text>"
}
code() { # y text...
    y=$1
    shift
    for line in "$@"; do
        echo "<text x='440' y='$y' class='c'>$line</text>"
        y=$((y + 16))
    done
}

{
    echo "<svg xmlns='http://www.w3.org/2000/svg' width='780' height='560' viewBox='0 0 780 560' font-family='sans-serif'>"
    echo "<style>.t{font-size:14px;font-weight:bold}.n{font-size:13px;text-anchor:middle;font-weight:bold}.r{font-size:9px;text-anchor:middle;fill:#555}.c{font-size:12px;font-family:monospace}</style>"
    echo "<defs><marker id='tip' markerWidth='8' markerHeight='8' refX='6' refY='4' orient='auto'><path d='M0,0 L8,4 L0,8 z' fill='#7a5533'/></marker></defs>"
    echo "<rect width='780' height='560' fill='white'/>"

    title 26 'Loads: each node its class, each edge its label. a and b are picked.'
    node 60 90 a 0
    node 210 90 m 1
    node 360 90 b 2
    arrow 60 210 90 3
    arrow 210 360 90 4
    code 60 '0  class region        4 pairs' '1  class region        4' '2  class region        4' '3  label touch         3' '4  label touch         3'

    title 166 'Step C: m has two edges and no pick. Its edges become one, through m.'
    node 60 220 a 0
    node 360 220 b 2
    arrow 60 360 220 6
    code 206 '5  3 composed with 1    3' '6  5 composed with 4    2: (1,3) (2,4)'

    title 296 'Step D: the last edge. a and b become one node, whose values are tags.'
    node 210 350 'a b' 11
    code 326 '7  0 composed with 6    2' '8  7 composed with 2    2' '9  left tag of 8        2: the path of a' '10 right tag of 8       2: the path of b' '11 tau of 8             2'

    title 440 'Rows: each left value of register 11, read through the two paths.'
    code 470 'tag     9    10' '589824  1    3' '589825  2    4'
    echo "<text x='20' y='536' class='c'>12 instructions, 33 pairs, at most 21 at once: 42 work words suffice.</text>"
    echo "</svg>"
} >reduction.svg
