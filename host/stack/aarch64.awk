# The code of AArch64, as clang writes it before it is assembled: all that a function takes off sp, and then its deepest callee.
# There is no red zone, and a return address is kept by whoever has to keep it. What memcpy and memset take is not known here.

# sp moves: only by a constant, and what is given back is not looked at
function moves(op, args, word, n) {
    n = split(args, word, /, #?/)
    if (op !~ /^(sub|add)$/ || args !~ /^sp, sp, #[0-9]+(, lsl #12)?$/) stop(name ": cannot read " op " " args)
    if (op == "sub") frame[name] += word[3] * (n == 4 ? 4096 : 1)
}
# sp moves as something is stored below it, at it and then below, or loaded from it
function moves_beside(op, args) {
    if (args ~ /\[sp\], #[0-9]+$/) return
    if (args !~ /\[sp, #-[0-9]+\]!$|\[sp\], #-[0-9]+$/) stop(name ": cannot read " op " " args)
    sub(/.*\[sp\]?, #-/, "", args); sub(/\]!$/, "", args)
    frame[name] += args
}
function goes(args) {
    sub(/.*, /, "", args)
    if (args ~ /^\.LBB/) return
    gsub(/"/, "", args)
    calls[name] = calls[name] "\n" args
}

BEGIN { return_address = red_zone = host_frame = 0 }
part != "code" { next }
{ sub(/ *\/\/.*/, "") }
/^[^\t].*:$/ && !/^"?\.L/ { name = substr($0, 1, length($0) - 1); gsub(/"/, "", name); starts_function(name); next }
$2 ~ /^\.(xword|word|hword|byte)$/ && $3 !~ /^-?[0-9]+$/ { stop("a table has " $3) }
$2 !~ /^[a-z]/ { next }
{
    op = $2; args = $3
    if (op ~ /^(bl|b|b\..*|cbn?z|tbn?z)$/) goes(args)
    else if (op ~ /^bl?r/ && op != "brk" || op ~ /^ret/ && op args != "ret") stop(name ": goes by a register")
    else if (op ~ /^adrp?$/ && args !~ /, "?\.L/ || args ~ /, =/) stop(name ": takes the address of " args)
    else if (args ~ /\[sp.*\]!|\[sp\],/) moves_beside(op, args)
    else if (args ~ /^w?sp(,|$)/) moves(op, args)
}
