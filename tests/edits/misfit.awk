# For the awk programs that read edits. `files` is to have every file of the crates as a key.

# The text of a file, each line with its newline.
function text_of(path,    line, text) {
    if (!(path in texts)) {
        while ((getline line < path) > 0) text = text line "\n"
        close(path)
        texts[path] = text
    }
    return texts[path]
}

# What keeps an edit from fitting, or nothing. Its replacements are made one after the other, as rt makes them; `edited` then has
# the text of each file that it changes. Its files are named from the folder.
function misfit(edit, folder, edited,    line, file, old, path, text, at, rest, pairs) {
    while ((getline line < edit) > 0) {
        if (sub(/^file: /, "", line)) file = line
        else if (sub(/^old: /, "", line)) old = line
        else if (sub(/^new: ?/, "", line)) {
            path = folder "/" file
            if (path !~ /^crates\/[^\/]+\/(src|specs|proofs)\// || !(path in files)) return "there is no file " path
            text = path in edited ? edited[path] : text_of(path)
            at = old == "" ? 0 : index(text, old)
            if (!at) return "not in " file ": " old
            rest = substr(text, at + length(old))
            if (index(rest, old)) return "more than once in " file ": " old
            edited[path] = substr(text, 1, at - 1) line rest
            old = ""
            pairs++
        }
    }
    return pairs ? "" : "it replaces nothing"
}
