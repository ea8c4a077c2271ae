#!/bin/sh
# sh build/chain.sh  prints each library that the program uses, those first for which the most work of others waits:
# its name, the processor seconds of the longest chain of crates that goes through it, and `longest` where that is the
# longest of all or at most a tenth shorter, else `-`. A crate's seconds are what its lines cost, as measured over all.
set -e
{
    find crates/*/src crates/*/specs crates/*/proofs -type f -exec wc -l {} + 2> /dev/null
    sed -n 's/^\([a-z][a-z0-9_]*\):/crate \1/p' crates.txt
} | awk '
    $1 != "crate" { split($2, part, "/"); seconds[part[2]] += $1 * (part[3] == "src" ? 0.168 : 0.004) }
    $1 == "crate" { crate[++crates] = $2; seconds[$2] += 10.5; for (i = 3; i <= NF; i++) { stands_on[$2, i] = $i; last[$2] = i } }
    END {
        needed["ira"] = 1
        for (n = crates; n > 0; n--) {
            it = crate[n]
            if (!(it in needed)) continue
            above[it] += seconds[it]
            for (i = 3; i <= last[it]; i++) {
                low = stands_on[it, i]
                needed[low] = 1
                if (above[low] < above[it]) above[low] = above[it]
            }
        }
        for (n = 1; n <= crates; n++) {
            it = crate[n]
            if (!(it in needed)) continue
            for (i = 3; i <= last[it]; i++)
                if (below[it] < below[stands_on[it, i]]) below[it] = below[stands_on[it, i]]
            below[it] += seconds[it]
            through[it] = below[it] + above[it] - seconds[it]
            if (longest < through[it]) longest = through[it]
        }
        for (n = 1; n <= crates; n++) {
            it = crate[n]
            if (it in needed && it != "ira")
                printf "%.0f %s %.0f %s\n", above[it], it, through[it], (10 * through[it] >= 9 * longest ? "longest" : "-")
        }
    }' | sort -s -k 1,1nr | cut -d ' ' -f 2-
