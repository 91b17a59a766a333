# The code of x86-64, as objdump writes it: a function's return address, all its pushes and all that it takes off rsp, and then its
# deepest callee or the red zone. memcpy and memset take a return address and a red zone each.
# A jump by a register stays in its function: no instruction takes a function's address, and tables of addresses have those of
# their own function alone.

function hex(digits, n, i) {
    for (i = 1; i <= length(digits); i++) n = 16 * n + index("0123456789abcdef", substr(digits, i, 1)) - 1
    return n
}
# rsp moves: only by a constant, and what is given back is not looked at
function moves(op, args) {
    if (op !~ /^(sub|add)$/ || args !~ /^rsp,0x[0-9a-f]+$/ || length(args) > 12) stop(name ": cannot read " op " " args)
    if (op == "sub") frame[name] += hex(substr(args, 7))
}
# the function that a call or a jump goes to: by its relocation, or by its name where the assembler has placed it
function target(args) {
    if ($3 ~ /R_X86_64_/) { args = $4; sub(/-0x4$/, "", args); sub(/^\.text\./, "", args); return args }
    if (args !~ /<.*>$/) return ""
    sub(/^[^<]*</, "", args); sub(/>$/, "", args)
    return args
}
function goes(op, args, to) {
    to = target(args)
    if (op == "jmp" && args ~ /^r[a-z0-9]+$/ || op != "call" && index(to, name "+0x") == 1) return
    if (to == "") stop(name ": goes by a register or by memory")
    calls[name] = calls[name] "\n" to
}

BEGIN { return_address = 8; red_zone = 128; host_frame = 8 + 128 }
part == "tables" && /^RELOCATION RECORDS FOR / { table = substr($0, 25, index($0, "]") - 25) }
part == "tables" && table !~ /^\.(text|eh_frame|debug)/ && split($0, word, " ") == 3 && word[2] ~ /^R_X86_64_/ {
    if (".rodata" substr(word[3], 6, index(word[3], "+") - 6) != table) stop("a table of " table " has " word[3])
}
part != "code" { next }
/^[0-9a-f]+ <.*>:$/ { name = $0; sub(/^[^<]*</, "", name); sub(/>:$/, "", name); starts_function(name); next }
NF < 2 { next }
{
    op = args = $2
    sub(/ .*/, "", op)
    sub(/^[^ ]+ */, "", args)
    if (op ~ /^push/) frame[name] += 8
    else if (op ~ /^(call|j)/) goes(op, args)
    else if (op ~ /^(enter|notrack|bnd)$/) stop(name ": cannot read " $2)
    else if (args ~ /^[re]?spl?(,|$)/ || op == "xchg" && args ~ /,[re]?spl?$/) moves(op, args)
    if (op !~ /^(call|j)/ && $4 != "" && $4 !~ /^\.(rodata|LCPI)/) stop(name ": takes the address of " $4)
}
