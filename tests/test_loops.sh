#!/bin/sh
# The loops by which 31 moves groups in the triples of a row, in the archive's machine code: none may have a conditional jump but its own (document 02,
# Item 6).
#
#     tests/test_loops.sh ARCHIVE
#
# All of them stand in operations::map_newest, which does every 31. A loop moves groups if it loads words, shifts marks left by a register, puts them in
# with `or`, and stores the words where they were. The compiler makes two of each, for several triples at once and for one: for 31 alone, for 31 behind
# a rule, and for a rule that leaves what has its label to the next one.
set -u

archive=${1:?usage: tests/test_loops.sh ARCHIVE}

objdump -d -M intel --no-show-raw-insn "$archive" | awk '
    /^[0-9a-f]+ </ { inside = $0 ~ /<operations::map_newest>:$/ }
    inside && /^ +[0-9a-f]+:\t/ {
        sub(/^ +/, "")
        place[++n] = substr($0, 1, index($0, ":") - 1)
        line_of[place[n]] = n
        code[n] = substr($0, index($0, "\t") + 1)
    }

    # The line that a jump goes to; 0 for any other instruction.
    function goal(k,    words) {
        split(code[k], words, " ")
        return words[1] ~ /^j/ ? line_of[words[2]] : 0
    }

    # The place in memory that an instruction names.
    function memory(k) {
        return match(code[k], /\[[^]]*\]/) ? substr(code[k], RSTART, RLENGTH) : ""
    }

    function moves_groups(from, to,    k, loaded, shifts, puts, stores) {
        for (k = from; k <= to; k++) {
            if (code[k] ~ /^mov[a-z]* +[a-z0-9]+,[A-Z]+ PTR / && memory(k) !~ /rsp/) loaded[memory(k)] = 1
            if (code[k] ~ /^(pslld +xmm[0-9]+,xmm|shl +[a-z0-9]+,cl)/) shifts = 1
            if (code[k] ~ /^p?or +[a-z0-9]+,[a-z]/) puts = 1
        }
        for (k = from; k <= to; k++)
            if (code[k] ~ /^mov[a-z]* +[A-Z]+ PTR / && memory(k) in loaded) stores = 1
        return shifts && puts && stores
    }

    # The conditional jumps of a loop; 0 where another one begins in it.
    function jumps(from, to,    k, count) {
        for (k = from; k <= to; k++) {
            if (k > from && last[k]) return 0
            if (goal(k) && code[k] !~ /^jmp/) count++
        }
        return count
    }

    END {
        if (!n) print "test_loops: there is no operations::map_newest"
        for (k = 1; k <= n; k++)
            if (goal(k) && goal(k) <= k) last[goal(k)] = k
        for (k = 1; k <= n; k++) {
            if (!last[k] || !jumps(k, last[k]) || !moves_groups(k, last[k])) continue
            loops++
            if (jumps(k, last[k]) == 1) continue
            print "test_loops: " jumps(k, last[k]) - 1 " more conditional jumps in the loop from " place[k] " to " place[last[k]]
            wrong++
        }
        print "test_loops: " loops + 0 " loops move groups, " wrong + 0 " of them with a conditional jump beside their own"
        exit wrong || loops < 6
    }'
