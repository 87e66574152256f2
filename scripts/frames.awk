# The most stack that each exported function can use, from the disassembly of x86-64 code with its relocations: what C passes on
# the stack, and then, along the deepest path, each function's return address, frame and pushed arguments.

function number(text,    k, n) {
    if (text !~ /^0x/) return text + 0
    for (k = 3; k <= length(text); k++) n = 16 * n + index("0123456789abcdef", substr(text, k, 1)) - 1
    return n
}

# GNU's disassembler writes -128, which takes less room in code than 128, as a number without a sign.
function signed(text) {
    if (text == "0xffffffffffffff80") return -128
    return text ~ /^-/ ? -number(substr(text, 2)) : number(text)
}

# The first pushes and the first subtraction make the frame; later ones, up to the next addition, are arguments of a call.
function grow(bytes) {
    if (framed[f]) pushed += bytes
    else frame[f] += bytes
}

# Arguments that the caller passed lie above the frame and the return address; a leaf may write below its frame.
function offset(bytes) {
    if (bytes < 0 && below[f] < -bytes) below[f] = -bytes
    bytes -= frame[f] + pushed
    if (framed[f] && passed[f] < bytes) passed[f] = bytes
}

function most(f,    k, n, deepest) {
    if (f in known) return known[f]
    if (f in entered) stop(f " calls itself")
    if (!(f in frame)) stop(f " is called and is not there")
    entered[f] = 1
    deepest = below[f]
    for (k = 1; k <= calls[f]; k++) {
        n = arguments[f, k] + most(callee[f, k])
        if (deepest < n) deepest = n
    }
    return known[f] = 8 + frame[f] + deepest
}

function stop(why) {
    print "frames: " why > "/dev/stderr"
    stopped = 1
    exit 1
}

/^[0-9a-f]+ <.*>:$/ {
    f = substr($2, 2, length($2) - 3)
    frame[f] = pushed = 0
    next
}

/R_X86_64_PLT32/ {
    sub(/^\.text\./, "", $NF)
    sub(/[-+]0x[0-9a-f]+$/, "", $NF)
    callee[f, ++calls[f]] = $NF
    arguments[f, calls[f]] = pushed
    named++
    next
}

/^ *[0-9a-f]+:/ {
    sub(/#.*/, "")
    sub(/^ *[0-9a-f]+:[ \t]*/, "")
    operation = $1
    sub(/^[a-z]+[ \t]*/, "")
    gsub(/[ \t]/, "")
    if (operation ~ /^push/) grow(8)
    if (operation ~ /^(add|sub)/ && /^\$.*,%rsp$/) {
        moved = signed(substr($0, 2, index($0, ",") - 2))
        if (operation ~ /^add/) moved = -moved
        if (moved > 0) grow(moved)
        else pushed = 0
        framed[f] = 1
    } else if (operation ~ /^call/) {
        if (/\*/) stop(f " calls it is not known whom")
        framed[f] = 1
        made++
    } else if (match($0, /-?(0x)?[0-9a-f]+\(%rsp\)/)) {
        offset(signed(substr($0, RSTART, RLENGTH - 6)))
    }
}

END {
    if (stopped) exit 1
    if (named != made) stop(made " calls, of which " named " say whom they call")
    for (f in frame) if (f ~ /^coldroom_/) print f, most(f) + int((passed[f] + 15) / 16) * 16
}
