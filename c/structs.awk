# Turns the #[repr(C)] structs of Rattle sources into C, in the order in which they come: NAME of crate C becomes `struct C_NAME`.
# Fields keep their names, but for `errno`, which is a macro in C.
BEGIN {
    c_type["u8"] = "uint8_t"; c_type["u16"] = "uint16_t"; c_type["u32"] = "uint32_t"; c_type["u64"] = "uint64_t"; c_type["usize"] = "size_t"; c_type["bool"] = "bool"
}
/^#\[repr\(C\)\]$/ { marked = 1; next }
marked && /^pub struct / {
    split(FILENAME, path, "/")
    name = $3
    print "struct " path[2] "_" name " {"
    inside = 1; marked = 0
    next
}
inside && /^}/ {
    print "};\n"
    c_type[name] = "struct " path[2] "_" name
    inside = 0
    next
}
inside {
    sub(/^ *(pub )?/, ""); sub(/,$/, "")
    split($0, field, ": ")
    type = field[2]; length_of = ""
    if (type ~ /^\[/) {
        gsub(/[][]/, "", type)
        split(type, array, "; ")
        type = array[1]; length_of = "[" array[2] "]"
    }
    if (!(type in c_type)) { print FILENAME ": " type " is not known" >"/dev/stderr"; exit 1 }
    print "    " c_type[type] " " (field[1] == "errno" ? "error" : field[1]) length_of ";"
}
