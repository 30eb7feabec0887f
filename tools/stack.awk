# stack.awk HEADER RUST RELOCATIONS CODE: see tools/stack. RELOCATIONS is what objdump -r says of the archive, CODE what objdump -dr says.
# -v ways=1 says by which functions the deepest sum comes about.

# What a function of C's library may take, with the linker that may look it up at its first call.
BEGIN { C_LIBRARY = 4096; of_c["memset"]; of_c["memcpy"]; of_c["memmove"] }

FNR == 1 { file++ }

# What the header says of each call, and what the documentation for Rust says.
file == 1 && /^ *KOLLAFRIN_STACK_[A-Z_]+ = [0-9]+/ { said[tolower($1)] = $3 + 0 }
file == 2 && sub(/^\/\/!/, "") { rust = rust $0 " " }

# Where the tables of jumps of a function lead: into the function itself, or it is not known where.
file == 3 && /^RELOCATION RECORDS FOR/ { owner = $4; gsub(/^\[|\]:$/, "", owner); is_table = sub(/^\.rodata\./, "", owner) }
file == 3 && is_table && /R_X86_64/ { tables[owner]; if (index($3, ".text." owner "+") != 1) strange[owner] }

# The instructions of each function, and which function each calls.
file == 4 && /^[0-9a-f]+ <.*>:$/ { name = substr($2, 2, length($2) - 3); functions[name]; size[name] = 0; next }
file == 4 && /^\t+[0-9a-f]+: R_X86_64/ { to = $3; if (sub(/-0x4$/, "", to)) { sub(/^\.text\./, "", to); calls[name, size[name]] = to } next }
file == 4 && /^ *[0-9a-f]+:\t/ {
    split($0, part, "\t")
    gsub(/[ :]/, "", part[1])
    sub(/ *[#<].*/, "", part[2])
    sub(/^notrack /, "", part[2])
    code[name, ++size[name]] = part[2]
    place[name, part[1]] = size[name]
}

function fail(text) { print "stack: " text; exit 1 }

# A number that objdump writes in hex; one of 64 bits is below zero.
function number(text,    i, n) {
    if (length(text) == 16 && text ~ /^f/) return number(substr(text, 9)) - 4294967296
    for (i = 1; i <= length(text); i++) n = 16 * n + index("0123456789abcdef", substr(text, i, 1)) - 1
    return n
}

# The first such number of an instruction.
function amount(op) { match(op, /0x[0-9a-f]+/); return number(substr(op, RSTART + 2, RLENGTH - 2)) }

function thousands(n,    text) {
    for (; n >= 1000; n = int(n / 1000)) text = sprintf(",%03d", n % 1000) text
    return n text
}

# An instruction of f to go on at, with the stack d bytes deep: as deep as on any other way there.
function go_on(f, i, d) {
    if (i > size[f]) fail(f ": the code goes on past its end")
    if ((f, i) in deep && deep[f, i] != d) fail(f ": the stack is " deep[f, i] " or " d " bytes deep at: " code[f, i])
    if (!((f, i) in deep)) { deep[f, i] = d; todo[++left] = i }
}

# The instruction of f that a jump leads to.
function target(f, op,    at) {
    at = op
    sub(/^[a-z]+ +/, "", at)
    if (!((f, at) in place)) fail(f ": not known where this leads: " op)
    return place[f, at]
}

# A call of another function, with the stack d bytes deep.
function calling(f, i, d) {
    if (!((f, i) in calls)) fail(f ": not known where this leads: " code[f, i])
    callee[f, ++callees[f]] = calls[f, i]
    depth[f, callees[f]] = d
}

# How deep the stack is when an instruction is done that does no more than move the stack pointer. The compiler touches each page of a large
# frame, in a loop up to %r11: `limit` is where that ends.
function moved(f, op, d,    last) {
    last = op
    sub(/^.*[ ,]/, "", last)
    if (op ~ /^(leave|enter|xchg.*%rsp|pop.*%rsp)/) fail(f ": the stack pointer moves by what is not a number: " op)
    if (op ~ /^push/) return d + 8
    if (op ~ /^popq? /) return d - 8
    if (op ~ /^sub +\$0x[0-9a-f]+,%rsp$/) return d + amount(op)
    if (op ~ /^add +\$0x[0-9a-f]+,%rsp$/) return d - amount(op)
    if (op ~ /^mov +%rsp,%r11$/) limit = d
    if (op ~ /^sub +\$0x[0-9a-f]+,%r11$/) limit += amount(op)
    if (last == "%rsp" && op !~ /^(cmp|test)/) fail(f ": the stack pointer moves by what is not a number: " op)
    return d
}

# Every instruction of a function, along its jumps: its frame, the return address counted, and how deep the stack is at each of its calls.
function walk(f,    i, d, op) {
    left = 0
    go_on(f, 1, 8)
    while (left > 0) {
        i = todo[left--]
        op = code[f, i]
        d = moved(f, op, deep[f, i])
        if (d > frame[f]) frame[f] = d
        # below the stack pointer, where a function that calls none may write
        if (op !~ /^lea/ && match(op, /-0x[0-9a-f]+\(%rsp/) && d + amount(substr(op, RSTART)) > frame[f]) frame[f] = d + amount(substr(op, RSTART))
        if (op ~ /^ret/) { if (d != 8) fail(f ": the stack is " d " bytes deep at its end") }
        else if (op ~ /^jmp +\*/) { if (!(f in tables) || f in strange) fail(f ": not known where this leads: " op); by_table[f] = d }
        else if (op ~ /^jmp/ && (f, i) in calls) calling(f, i, d - 8)
        else if (op ~ /^jmp/) go_on(f, target(f, op), d)
        else if (op ~ /^call/) { calling(f, i, d); go_on(f, i + 1, d) }
        else if (op ~ /^j/ && code[f, i - 1] ~ /^cmp +%r11,%rsp$/) go_on(f, i + 1, limit)
        else if (op ~ /^j/) { go_on(f, target(f, op), d); go_on(f, i + 1, d) }
        else if (op !~ /^ud2/) go_on(f, i + 1, d)
        # what is left is where a table of jumps leads, with the stack as deep as at the jump
        for (i = 1; left == 0 && f in by_table && i <= size[f]; i++) if (!((f, i) in deep) && code[f, i] !~ /nop|^xchg/) go_on(f, i, by_table[f])
    }
}

# The deepest sum from a function on, where one function is not called.
function deepest(f, without,    i, to, sum, most) {
    if (f in of_c) return C_LIBRARY
    if (!(f in functions)) fail("not in the library: " f)
    if (f in within) fail("comes back to itself: " f)
    if ((f, without) in sums) return sums[f, without]
    within[f]
    most = frame[f]
    way[f, without] = f " " thousands(frame[f])
    for (i = 1; i <= callees[f]; i++) {
        to = callee[f, i]
        if (to == without) continue
        sum = depth[f, i] + deepest(to, without)
        if (sum > most) {
            most = sum
            way[f, without] = f " " thousands(depth[f, i]) ", " (to in of_c ? to " " thousands(C_LIBRARY) : way[to, without])
        }
    }
    delete within[f]
    return sums[f, without] = most
}

END {
    for (f in functions) walk(f)
    for (f in functions) if (f ~ /^kollafrin_[a-z_]+$/) {
        m = f
        sub(/^kollafrin_/, "kollafrin_stack_", m)
        if (!(m in said)) fail("the header does not say what this takes: " f)
    }
    for (m in said) {
        f = m
        sub(/_stack_/, "_", f)
        without = sub(/_short$/, "", f) ? "loader::run::load_sized::<=32768>" : ""
        n = deepest(f, without)
        print "stack: " f (without == "" ? "" : ", short module") ": " thousands(n) " bytes counted of " thousands(said[m]) (ways ? ": " way[f, without] : "") | "sort"
        if (n > said[m]) less = less " " toupper(m)
        if (rust !~ "[^0-9,]" thousands(said[m]) "[^0-9,]") unsaid = unsaid " " thousands(said[m])
    }
    close("sort")
    if (less != "") fail("the header says less than is taken:" less)
    if (unsaid != "") fail("bindings/rust/src/lib.rs does not say:" unsaid)
}
