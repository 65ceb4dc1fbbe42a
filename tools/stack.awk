# The deepest stack of each exported function of one assembler text, as clang writes it, along every path of jumps and calls.
#
#     awk -f tools/stack.awk -v machine=x86_64|aarch64 -v outside=BYTES -v limit=BYTES part=layout REMARKS part=text TEXT
#
# REMARKS is what clang says with -Rpass-analysis=stack-frame-layout: the place of each variable, so that one below the stack pointer is seen (on x86-64 a
# function that calls nothing may keep 128 bytes there). For each exported function its name, its bytes and its deepest path are printed, each function on that path
# with the bytes that it has on the stack. Bytes are counted from the caller's stack pointer before the call: with arguments on the stack and return addresses.
# `outside` is what a function of the C library is assumed to take. Where bytes cannot be counted (recursion; a call or a jump that is not to a name; a stack
# pointer that is moved by anything but a number, or that two paths leave different), and where an exported function takes more than `limit`, it says so and fails.

function fail(says) {
    print "stack: FAILED: " machine ": " says > "/dev/stderr"
    failed = 1
    exit 1
}

function name_of(word) {
    sub(/@PLT$/, "", word)
    gsub(/"/, "", word)
    return word
}

# The first number in a text.
function number_in(text) {
    sub(/^[^0-9-]*/, "", text)
    return text + 0
}

BEGIN {
    # `back` is the return address, which a call puts on the stack on x86-64, and in a register on Arm
    if (machine == "x86_64") { back = 8; comment = "#"; pointer = "%rsp" }
    else if (machine == "aarch64") { back = 0; comment = "//"; pointer = "(^|[^a-z])sp([^a-z]|$)" }
    else { fail("no machine that is known") }
    split("memset memcpy memmove memcmp bcmp", names, " ")
    for (i in names) { library[names[i]] = 1 }
}

# The layout of each function's frame, in bytes from the stack pointer at its first instruction: `low` is where it ends, `arguments` those of its caller.
part == "layout" && /^Function: / { laid = name_of($2) }
part == "layout" && /^Offset: / {
    if ($0 !~ /\[SP[+-][0-9]+\], Type: (Spill|Variable|Fixed|Protector), .*Size: [0-9]+/) { fail(laid ": a place on the stack that is not known: " $0) }
    known[laid] = 1
    at = substr($2, 4) + 0
    size = $0
    sub(/.*Size: /, "", size)
    if (at < 0 && back - at > low[laid]) { low[laid] = back - at }
    if (at >= back && at + size - back > arguments[laid]) { arguments[laid] = at + size - back }
}
part == "layout" { next }

# The text: its instructions, where each label stands, and which functions are exported.
{
    at = index($0, comment)
    if (at > 0) { $0 = substr($0, 1, at - 1) }
    sub(/[ \t]+$/, "")
}
/^[ \t]*$/ { next }
$1 == ".globl" { exported[name_of($2)] = 1; next }
$1 == ".type" && /,@function$/ { sub(/,@function$/, "", $2); is_function[name_of($2)] = 1; next }
/^[^ \t].*:$/ {
    label = name_of(substr($0, 1, length($0) - 1))
    if (label in is_function) { now = label; order[++functions] = now; first[now] = count + 1 }
    else if (label ~ /^\.Lfunc_end/) { last[now] = count; now = "" }
    else { place[label] = count + 1 }
    next
}
now == "" { next }
$1 ~ /^\.(byte|short|hword|long|word|quad|xword|octa|inst|ascii|asciz|string|zero|space|skip|fill)$/ { fail(now ": data amid the code") }
$1 ~ /^\./ { next }
{
    operation[++count] = $1
    sub(/^[ \t]*[^ \t]+[ \t]*/, "")
    operands[count] = $0
}

# How many bytes an instruction of f puts on the stack; less than 0 where it takes some off.
function moved(f, op, words) {
    if (machine == "x86_64") {
        if (op == "pushq") { return 8 }
        if (op == "popq" && words != "%rsp") { return -8 }
        if (op ~ /^(sub|add)q$/ && words ~ /^\$-?[0-9]+, %rsp$/) { return op == "subq" ? number_in(words) : -number_in(words) }
        if (op ~ /^(push|pop[^c]|enter|leave|int$|syscall|sysenter|iret|loop)/) { fail(f ": " op " " words) }
        if ((words ~ /%(rsp|esp|sp|spl)$/ && op !~ /^(cmp|test)/) || (op ~ /^x(chg|add)/ && words ~ /%rsp/)) { fail(f ": moves the stack pointer: " op " " words) }
        return 0
    }
    if (op ~ /^(sub|add)$/ && words ~ /^sp, sp, #[0-9]+(, lsl #12)?$/) { return number_in(words) * (words ~ /lsl/ ? 4096 : 1) * (op == "sub" ? 1 : -1) }
    if (match(words, /\[sp, #-?[0-9]+\]!$/) || match(words, /\[sp\], #-?[0-9]+$/)) { return -number_in(substr(words, RSTART)) }
    if ((words ~ /^w?sp(,|$)/ && op !~ /^(cmp|cmn|tst)$/) || words ~ /\[sp(\],|.*\]!)/) { fail(f ": moves the stack pointer: " op " " words) }
    return 0
}

# Sees that what an instruction of f names at the stack pointer is laid out, and what it names below it too, with so many bytes on the stack.
function seen(f, words, depth,    below) {
    if (words ~ pointer && !(f in known)) { fail(f ": its frame is not laid out") }
    if (machine == "x86_64" ? match(words, /-[0-9]+\(%rsp/) : match(words, /\[sp, #-[0-9]+\]$/)) {
        below = -number_in(substr(words, RSTART))
        if (depth + below > low[f]) { fail(f ": names " below " bytes below the stack pointer, where nothing is laid out") }
    }
}

# Notes a call that f makes with so many bytes of its own on the stack.
function called(f, to, depth) {
    if (to !~ /^["A-Za-z_]/) { fail(f ": a call or a jump that is not to a name: " to) }
    to = name_of(to)
    if (!((f, to) in call_depth)) { callee[f, ++calls[f]] = to; call_depth[f, to] = depth }
    if (depth > call_depth[f, to]) { call_depth[f, to] = depth }
}

# Notes where a jump of f goes: on in f, or to another function in the place of f.
function jumped(f, to, depth) {
    sub(/^.*, /, "", to)
    if (to !~ /^\.L/) {
        if (depth != back) { fail(f ": leaves for " to " with " (depth - back) " bytes on the stack") }
        called(f, to, 0)
    } else {
        if (!(to in place)) { fail(f ": jumps to " to ", which is not there") }
        waiting[++waits] = place[to]
        waiting_depth[waits] = depth
    }
}

# Whether a path of f goes on behind its ith instruction, with so many bytes on the stack; calls and jumps are noted.
function goes_on(f, i, depth,    op, words) {
    op = operation[i]
    words = operands[i]
    if (op ~ /^(ud2|int3|hlt|brk|udf)$/) { return 0 }
    if (op ~ /^retq?$/ && words == "") {
        if (depth != back) { fail(f ": returns with " (depth - back) " bytes on the stack") }
        return 0
    }
    if (machine == "x86_64" ? op ~ /^call/ : op == "bl") { called(f, words, depth); return 1 }
    if (machine == "x86_64" ? op ~ /^j/ : op ~ /^(b|bc?\..*|cbn?z|tbn?z)$/) { jumped(f, words, depth); return op !~ /^(jmpq?|b)$/ }
    if (machine == "x86_64" ? op ~ /^ret/ : op ~ /^(bl?r|e?ret)/) { fail(f ": a call or a jump that is not to a name: " op " " words) }
    return 1
}

# Follows all paths of f: how many bytes it takes by itself is `frame[f]`.
function walk(f,    i, depth, bytes) {
    frame[f] = back
    waits = 1
    waiting[1] = first[f]
    waiting_depth[1] = back
    while (waits > 0) {
        i = waiting[waits]
        depth = waiting_depth[waits--]
        do {
            if (i > last[f]) { fail(f ": goes on past its end") }
            if (i in met) {
                if (met[i] != depth) { fail(f ": two paths meet with " met[i] " and " depth " bytes on the stack") }
                break
            }
            met[i] = depth
            bytes = moved(f, operation[i], operands[i])
            depth += bytes
            if (bytes == 0) { seen(f, operands[i], depth) }
            if (depth < back) { fail(f ": takes more off the stack than it put there") }
            if (depth > frame[f]) { frame[f] = depth }
        } while (goes_on(f, i++, depth))
    }
    if (low[f] > frame[f]) { frame[f] = low[f] }
}

# How many bytes f takes with all that it calls; `path[f]` says where.
function deepest(f,    k, to, bytes, most) {
    if (f in deep) { return deep[f] }
    if (f in open) { fail(f ": calls itself, at once or by way of others") }
    open[f] = 1
    if (f in first) { walk(f); most = frame[f] }
    else if (f in library) { most = outside + back }
    else { fail(f ": is called, and nothing is known of it") }
    path[f] = f " " most
    for (k = 1; k <= calls[f]; k++) {
        to = callee[f, k]
        bytes = call_depth[f, to] + deepest(to)
        if (bytes > most) { most = bytes; path[f] = f " " call_depth[f, to] ", " path[to] }
    }
    return deep[f] = most
}

# Which functions of the C library are called, and from where.
function leaving(    i, k, to, from, says, n, left) {
    for (i = 1; i <= functions; i++) {
        for (k = 1; k <= calls[order[i]]; k++) {
            to = callee[order[i], k]
            if (to in first) { continue }
            if (to in from) { from[to] = from[to] ", " order[i] }
            else { from[to] = order[i]; left[++n] = to }
        }
    }
    for (i = 1; i <= n; i++) { says = says (i > 1 ? ", " : "") left[i] " (from " from[left[i]] ")" }
    return n > 0 ? says : "none"
}

END {
    if (failed) { exit 1 }
    for (i = 1; i <= functions; i++) {
        f = order[i]
        if (!(f in exported)) { continue }
        entries++
        bytes = deepest(f) + arguments[f]
        printf "%s\t%d\t%s%s\n", f, bytes, (arguments[f] > 0 ? "arguments " arguments[f] ", " : ""), path[f]
        if (bytes > limit) { fail(f ": takes " bytes " bytes of stack, more than " limit) }
    }
    if (entries == 0) { fail("no function is exported") }
    printf "leaves\t%s\n", leaving()
}
