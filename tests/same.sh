# same.sh: what the shell tests count with, read by them: passed, failed, and a comparison of two texts.
passed=0
failed=0
# same WHAT FOUND WANTED
same() {
    if [ "$2" = "$3" ]; then
        passed=$((passed + 1))
    else
        failed=$((failed + 1))
        printf '%s:\n%s\nnot\n%s\n' "$1" "$2" "$3"
    fi
}
