# Reads the disassembly of one static library (objdump -dr --no-show-raw-insn) and prints for each function: its name, the most stack that a call of it
# takes in bytes, with its return address and all that it calls, and the way there.
#
# The depth below the caller is followed from instruction to instruction and along the jumps. What this cannot follow ends the run, with status 1:
# another change of the stack pointer than push, pop, add, sub and lea by a constant, two depths at one place, a call by a pointer, a call in a ring.
# A jump into another function is a last call: the frame is gone by then. memcpy and memset are the C library's, and count as their return address.

function fail(why) {
    print "tools/stack: " name[f] ": " why > "/dev/stderr"
    failed = 1
    exit 1
}

function number(digits,    n, i) {
    n = 0
    for (i = 1; i <= length(digits); i++)
        n = n * 16 + index("0123456789abcdef", substr(digits, i, 1)) - 1
    return n
}

# $0x10 and 0x10 and -0x10, and a constant below zero as objdump writes it, in 16 digits
function constant(text) {
    sub(/^\$/, "", text)
    if (text ~ /^-/)
        return -constant(substr(text, 2))
    sub(/^0x/, "", text)
    if (text ~ /^ffffffff/ && length(text) == 16)
        return number(substr(text, 9)) - 4294967296
    return number(text)
}

/^[0-9a-f]+ <.*>:$/ {
    f++
    name[f] = substr($0, index($0, "<") + 1)
    sub(/>:$/, "", name[f])
    begins[f] = last + 1
    of[name[f]] = f
    next
}

# a relocation belongs to the instruction above it; that of data is of no interest
/R_X86_64_/ {
    if (what[last] == "call" || what[last] ~ /^j/) {
        target = $NF
        sub(/[-+]0x[0-9a-f]+$/, "", target)
        sub(/^\.text\./, "", target)
        callee[last] = target
    }
    next
}

/^ +[0-9a-f]+:\t/ {
    last++
    ends[f] = last
    line = $0
    sub(/^ +/, "", line)
    address[last] = substr(line, 1, index(line, ":") - 1)
    place[f, address[last]] = last
    sub(/^[0-9a-f]+:\t/, "", line)
    what[last] = line
    sub(/ .*/, "", what[last])
    words[last] = line
    sub(/^[^ ]+ */, "", words[last])
}

# How far instruction i moves the stack pointer down.
function moves(i,    w) {
    w = words[i]
    if (what[i] ~ /^push/)
        return 8
    if (what[i] ~ /^pop/)
        return -8
    if (what[i] == "leave" || what[i] == "enter")
        fail("a frame by " what[i])
    if (w !~ /,%rsp$/ || what[i] ~ /^(cmp|test)/)
        return 0
    sub(/,%rsp$/, "", w)
    if (what[i] == "sub" && w ~ /^\$/)
        return constant(w)
    if (what[i] == "add" && w ~ /^\$/)
        return -constant(w)
    if (what[i] == "lea" && w ~ /^-?0x[0-9a-f]+\(%rsp\)$/) {
        sub(/\(%rsp\)$/, "", w)
        return -constant(w)
    }
    fail("cannot follow: " what[i] " " words[i])
}

# Puts a depth at instruction i, where it must be the only one.
function reach(i, d) {
    if (!(i in depth)) {
        depth[i] = d
        again = 1
    } else if (depth[i] != d)
        fail("two depths at " address[i])
}

# The depths of function f, along all its ways; before an instruction, the bytes between the caller's stack pointer and this one's.
function follow(    i, d, w, bottom) {
    depth[begins[f]] = 8
    do {
        again = 0
        for (i = begins[f]; i <= ends[f]; i++) {
            if (!(i in depth))
                continue
            d = depth[i] + moves(i)
            # a large frame is touched page by page in a loop, until the stack pointer is at the place that %r11 holds
            if (what[i] == "sub" && words[i] ~ /,%r11$/ && words[i - 1] == "%rsp,%r11") {
                bottom = words[i]
                sub(/,%r11$/, "", bottom)
                bottom = d + constant(bottom)
            }
            if (what[i] == "jne" && what[i - 1] == "cmp" && words[i - 1] == "%r11,%rsp") {
                reach(i + 1, bottom)
                continue
            }
            if (what[i] ~ /^j/ && !(i in callee)) {
                w = words[i]
                if (w ~ /^\*/)
                    fail("a jump by a table or a pointer at " address[i])
                sub(/ .*/, "", w)
                if (!((f, w) in place))
                    fail("a jump out of the function at " address[i])
                reach(place[f, w], d)
            }
            if (what[i] !~ /^(jmp|ret|ud2)/ && i < ends[f])
                reach(i + 1, d)
        }
    } while (again)
}

# What instruction i reaches below the stack pointer without moving it.
function below(i,    w) {
    w = words[i]
    if (what[i] == "lea" || !match(w, /-0x[0-9a-f]+\(%rsp/))
        return 0
    w = substr(w, RSTART + 1, RLENGTH - 6)
    return constant(w)
}

# Works out need[f] and way[f], behind those that it calls.
function work(f0,    i, d, n, g, most, through) {
    if (f0 in need)
        return
    f = f0
    if (f in busy)
        fail("it calls itself")
    busy[f] = 1
    follow()
    for (i = begins[f0]; i <= ends[f0]; i++) {
        if (!(i in depth))
            continue
        d = depth[i] + (moves(i) > 0 ? moves(i) : 0) + below(i)
        if (d > most) {
            most = d
            through = ""
        }
        if (d > frame[f0])
            frame[f0] = d
        if (what[i] == "call" && !(i in callee))
            fail("a call by a pointer at " address[i])
        if (!(i in callee))
            continue
        if (callee[i] ~ /^(memcpy|memset)$/)
            n = 8
        else if (callee[i] in of) {
            g = of[callee[i]]
            work(g)
            f = f0
            n = need[g]
        } else
            fail("it calls " callee[i] ", which is not here")
        d = (what[i] == "call" ? depth[i] : 0) + n
        if (d > most) {
            most = d
            through = callee[i] in of ? of[callee[i]] : ""
        }
    }
    need[f0] = most
    way[f0] = name[f0] " " frame[f0] (through == "" ? "" : " > " way[through])
    delete busy[f0]
}

END {
    if (failed)
        exit 1
    count = f
    for (k = 1; k <= count; k++)
        work(k)
    for (k = 1; k <= count; k++)
        printf "%s\t%d\t%s\n", name[k], need[k], way[k]
}
