# Reads `nm -S -t d` and then `objdump -dr` of the library's archive, and prints the functions that the run and
# the images reach by calls: their bytes (- if they are not in the archive), how many places call them, and where.

# A function's size.
/^[0-9]+ [0-9]+ [tTwW] / {
    name = $0
    sub(/^[0-9]+ [0-9]+ . /, "", name)
    size[name] = $2 + 0
}

# A function's code begins.
/^[0-9a-f]+ <.*>:$/ {
    from = $0
    sub(/^[^<]*</, "", from)
    sub(/>:$/, "", from)
}

# A call of another function, or a jump to it, is left to the linker: by the function's name or its section's.
/R_X86_64_PLT32|R_AARCH64_(CALL|JUMP)26/ {
    to = $0
    sub(/^.*R_[^\t]*\t/, "", to)
    sub(/[-+]0x[0-9a-f]+$/, "", to)
    sub(/^\.text\./, "", to)
    site(to)
}

# A function's call of itself is not.
/\t(call|bl) .*>$/ && index($0, "<" from ">") { site(from) }

function site(to) {
    if (!((from, to) in sites)) {
        caller[++pairs] = from
        callee[pairs] = to
    }
    sites[from, to]++
}

END {
    last = roots = split("tms_run tms_read_image tms_write_image tms_compare_images", reached, " ")
    for (i = 1; i <= last; i++) {
        for (k = 1; k <= pairs; k++) {
            if (caller[k] != reached[i]) continue
            to = callee[k]
            if (!(to in total)) reached[++last] = to
            where[to] = (to in total ? where[to] ", " : "") caller[k] " " sites[caller[k], to]
            total[to] += sites[caller[k], to]
        }
    }
    for (i = 1; i <= last; i++) {
        name = reached[i]
        bytes = name in size ? size[name] : "-"
        printf "%-28s %6s bytes   %s\n", name, bytes,
            i <= roots ? "exported" : sprintf("call sites %2d: %s", total[name], where[name])
    }
}
