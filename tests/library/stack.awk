# awk -f stack.awk kadalumbir.h FRAMES: holds the stack that the header says for each call to the frames of the archive, of
# which FRAMES is what objdump -dr writes: what a function pushes and subtracts, what it uses below that (as one that calls
# nothing may), its return address, and the most of what it calls. Prints the bytes of each call; fails where the header says
# fewer, or none, and where a function calls itself: of the recursions that there are the compiler makes loops (docs/PROMISES.md, epochs).

function fault(what) {
    print "stack: " what
    faults++
}

# The bytes of a function and all that it calls; one from outside the archive is its return address.
function deepest(name, most, i, bytes) {
    if (!(name in frame)) return 8
    for (i = 1; i <= called[name]; i++) {
        if (calls[name, i] == name) continue
        bytes = deepest(calls[name, i])
        if (bytes > most) most = bytes
    }
    if (name in itself) fault(name " calls itself, and how often is not known")
    return most + frame[name] + under[name]
}

function add_call(name) {
    if (name == here) itself[name] = 1
    calls[here, ++called[here]] = name
}

NR == FNR {
    if (match($0, /Stack: [0-9]+ bytes/)) said = substr($0, RSTART + 7, RLENGTH - 13)
    if (match($0, /^uint64_t kadalumbir_[a-z_]+/)) {
        limit[substr($0, RSTART + 9, RLENGTH - 9)] = said
        said = ""
    }
    next
}

/^[0-9a-f]+ <.*>:$/ {
    here = substr($0, index($0, "<") + 1)
    sub(/>:$/, "", here)
    frame[here] = 8
}
/\tpush / { frame[here] += 8 }
/\tsub +\$0x[0-9a-f]+,%rsp$/ {
    bytes = $0
    sub(/.*\$0x/, "", bytes)
    sub(/,%rsp$/, "", bytes)
    frame[here] += hexadecimal(bytes)
}
match($0, /-0x[0-9a-f]+\(%rsp/) {
    bytes = hexadecimal(substr($0, RSTART + 3, RLENGTH - 8))
    if (bytes > under[here]) under[here] = bytes
}
/\t(sub|and|lea) .*,%rsp$/ && !/\tsub +\$0x/ { fault(here " moves the stack in a way that is not known:" $0) }
/\tcall +[0-9a-f]+ <[^+]*>$/ {
    name = $NF
    gsub(/[<>]/, "", name)
    add_call(name)
}
/R_X86_64_(PLT32|PC32|GOTPCREL[A-Z]*)\t/ && !/\.rodata|\.LCPI/ {
    name = $NF
    sub(/[-+]0x[0-9a-f]+$/, "", name)
    sub(/^\.text\./, "", name)
    add_call(name)
}

function hexadecimal(digits, value, i) {
    for (i = 1; i <= length(digits); i++) value = 16 * value + index("0123456789abcdef", substr(digits, i, 1)) - 1
    return value
}

END {
    for (name in frame) if (name ~ /^kadalumbir_/) {
        found++
        bytes = deepest(name)
        if (limit[name] == "") fault("the header does not say it of " name)
        else if (bytes > limit[name] + 0) fault(name " needs " bytes " bytes and the header says " limit[name])
        printf "  %s %d\n", name, bytes | "sort"
    }
    close("sort")
    if (!found) fault("there is no call in the archive")
    exit faults > 0
}
