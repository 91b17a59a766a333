# What both machines share (host/stack/count): the deepest path over the call graph, and the comparison with lfa.h.
#
# The machine's own rules fill frame, the bytes that a function takes itself, and calls, the functions that it calls, a line each.
# They also say what lies below the deepest frame (red_zone), and what a function of the host takes (host_frame).

function stop(why) { print "stack: " why; stopped = 1; exit 1 }
function starts_function(name) {
    if (name in frame) stop("there are two of " name)
    frame[name] = return_address
}
function deepest(f, most, callee, n, i, d) {
    if (f == "memcpy" || f == "memset") return host_frame
    if (!(f in frame)) stop(f " is called and not in the library")
    if (f in open) stop(f " calls itself")
    open[f] = 1
    most = red_zone
    n = split(calls[f], callee, "\n")
    for (i = 2; i <= n; i++) { d = deepest(callee[i]); if (d > most) most = d }
    delete open[f]
    return frame[f] + most
}

part == "header" && /^#define LFA_STACK_/ { split($0, word, " "); said["lfa_" tolower(substr(word[2], 11))] = word[3] }
part == "exported" { exported[++count] = $0; is_exported[$0] = 1 }
END {
    if (stopped) exit 1
    for (i = 1; i <= count; i++) {
        f = exported[i]
        d = deepest(f)
        print f ": " d " bytes of stack, lfa.h says " (f in said ? said[f] : "nothing")
        if (!(f in said) || d > said[f]) faults++
    }
    for (f in said) if (!(f in is_exported)) { print "stack: " f " is not in the library"; faults++ }
    if (!count) stop("nothing is exported")
    exit faults > 0
}
