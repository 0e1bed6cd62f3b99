# Reads the Rattle sources of the exports and prints what the header has to say, a line each: structs, declarations of the
# exports, the inline function over each direct call, and the parameters of that over each call of a post.
function snake(name,    i, c, s) {
    s = ""
    for (i = 1; i <= length(name); i++) {
        c = substr(name, i, 1)
        s = s ((c ~ /[A-Z]/ && i > 1) ? "_" : "") tolower(c)
    }
    return s
}
function bare(type) {
    if (type == "u8") return "uint8_t"
    if (type == "u32") return "uint32_t"
    if (type == "u64") return "uint64_t"
    if (type == "usize") return "size_t"
    if (type ~ /^Romulus[A-Za-z]*$/) return snake(type)
    print "exports.awk: no C type for " type > "/dev/stderr"
    failed = 1
    return "unknown"
}
function parameter(name, type) {
    if (type ~ /^&mut \[.*\]$/) return bare(substr(type, 7, length(type) - 7)) " *" name ", size_t " name "_len"
    if (type ~ /^&\[.*\]$/) return "const " bare(substr(type, 3, length(type) - 3)) " *" name ", size_t " name "_len"
    if (type ~ /^&mut /) return bare(substr(type, 6)) " *" name
    if (type ~ /^&/) return "const " bare(substr(type, 2)) " *" name
    return bare(type) " " name
}
function argument(name, type) {
    return type ~ /\[.*\]$/ ? name ", " name "_len" : name
}
function member(name, type,    n) {
    if (type ~ /^\[.*; [0-9]+\]$/) {
        n = index(type, ";")
        return bare(substr(type, 2, n - 2)) " " name "[" substr(type, n + 2, length(type) - n - 2) "];"
    }
    return bare(type) " " name ";"
}
{
    sub(/^ *\/\/.*/, "")
    all = all " " $0
}
END {
    gsub(/[ \t]+/, " ", all)
    rest = all
    while (match(rest, /#\[repr\(C\)\][^{]*pub struct [A-Za-z]+ \{[^}]*\}/)) {
        item = substr(rest, RSTART, RLENGTH)
        rest = substr(rest, RSTART + RLENGTH)
        sub(/.*pub struct /, "", item)
        name = item
        sub(/ .*/, "", name)
        sub(/^[^{]*\{ */, "", item)
        sub(/,? *\}$/, "", item)
        count = split(item, fields, /, *pub /)
        line = "struct " snake(name) " {"
        for (i = 1; i <= count; i++) {
            sub(/^pub /, "", fields[i])
            split(fields[i], part, /: /)
            line = line " " member(part[1], part[2])
        }
        print line " }"
    }
    rest = all
    while (match(rest, /#\[unsafe\(no_mangle\)\] pub extern "C" fn [a-z0-9_]+\([^)]*\)( -> [A-Za-z0-9]+)?/)) {
        item = substr(rest, RSTART, RLENGTH)
        rest = substr(rest, RSTART + RLENGTH)
        sub(/.* fn /, "", item)
        result = "void"
        if (match(item, / -> [A-Za-z0-9]+$/)) {
            result = bare(substr(item, RSTART + 4))
            item = substr(item, 1, RSTART - 1)
        }
        name = item
        sub(/\(.*/, "", name)
        sub(/^[^(]*\( */, "", item)
        sub(/,? *\)$/, "", item)
        count = split(item, parameters, /, */)
        declared = passed = ""
        for (i = 1; i <= count; i++) {
            split(parameters[i], part, /: /)
            declared = declared (i > 1 ? ", " : "") parameter(part[1], part[2])
            passed = passed ", " argument(part[1], part[2])
        }
        print result " " name "(" declared ");"
        if (name ~ /^romulus_c_[nmth](40|56)_/) {
            call = name
            sub(/^romulus_c_/, "romulus_", call)
            kind = name
            sub(/.*_/, "", kind)
            print "inline " result " " call "(" declared ") { return romulus_" kind "_by(" name passed "); }"
        } else {
            call = name
            sub(/^romulus_c_/, "romulus_", call)
            print "inline " result " " call "(" declared ")"
        }
    }
    exit failed
}
