# Makes of each struct that structs.awk made a function that sets all bytes of its fields to 0xFF: what it leaves is padding.
/^struct .* {$/ { name = $2; body = "" }
/^};$/ { print "static inline void mark_" name "(struct " name " *s)\n{\n" body "}\n" }
/^ / {
    type = $2; field = $NF; sub(/;$/, "", field)
    count = field; sub(/\[.*/, "", field)
    if ($1 != "struct") body = body "    memset(&s->" field ", 0xFF, sizeof s->" field ");\n"
    else if (count == field) body = body "    mark_" type "(&s->" field ");\n"
    else {
        gsub(/.*\[|\]/, "", count)
        body = body "    for (size_t i = 0; i < " count "; i++)\n        mark_" type "(&s->" field "[i]);\n"
    }
}
