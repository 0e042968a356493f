# Functions of tests/c_and_python and tests/aarch64, which count cases and run tests/c. The caller sets `here` (the
# repository), `room` (a temporary folder) and `emulator` (the command that runs a built program, or nothing).
passed=0 failed=0
warnings="-Wall -Wextra -Werror -I$here/include"
refusing=-Wl,--wrap=malloc,--wrap=realloc

# has COMMAND WHAT: returns whether there is a command. Without it, a line says what is skipped.
has() {
    command -v "$1" >/dev/null && return
    echo "skipped: $2, because there is no command $1"
    return 1
}

# wants NAME COMMAND..: a case that passes if the command does. If it fails, its output is shown.
wants() {
    local name=$1
    shift
    if "$@" >"$room/said" 2>&1; then
        passed=$((passed + 1))
    else
        failed=$((failed + 1))
        echo "failed: $name"
        tail -n 30 "$room/said"
    fi
}

# counts NAME COMMAND..: runs a command whose last line is 'N passed, M failed', and counts its cases.
counts() {
    local name=$1 found
    shift
    "$@" >"$room/said" 2>&1
    local status=$?
    found=$(tail -n 1 "$room/said")
    if [[ $found =~ ^([0-9]+)\ passed,\ ([0-9]+)\ failed$ && $status = $((BASH_REMATCH[2] > 0)) ]]; then
        passed=$((passed + BASH_REMATCH[1])) failed=$((failed + BASH_REMATCH[2]))
        [ "${BASH_REMATCH[2]}" = 0 ] && return
    else
        failed=$((failed + 1))
    fi
    echo "failed: $name (status $status)"
    tail -n 30 "$room/said"
}

# counts_python NAME COMMAND..: runs tests by Python's unittest, each of which counts as a case. Prints the reasons for
# skipped tests.
counts_python() {
    local name=$1 status ran
    shift
    "$@" -v >"$room/tests" 2>&1
    status=$? ran=$(sed -n 's/^Ran \([0-9]*\) tests.*/\1/p' "$room/tests")
    sed -n "s/^.* \.\.\. skipped '\(.*\)'$/skipped: \1/p" "$room/tests" | sort -u
    if [ $status = 0 ] && [ "${ran:-0}" -gt 0 ]; then
        passed=$((passed + ran))
        return
    fi
    failed=$((failed + 1))
    echo "failed: $name"
    tail -n 60 "$room/tests"
}

# tests_in_c ABOUT COMPILER FLAGS LIBRARY..: builds the programs of tests/c at both sizes with this compiler, and runs
# them.
tests_in_c() {
    local program size
    for program in calls rows models mixtures counts floats indexed lanes refused_memory vectors; do
        for size in 32 16; do
            wants "$program.c at $size bits$1: builds" \
                "$2" -std=c11 -O1 $warnings $3 -DBITS=$size "$here/tests/c/$program.c" "${@:4}" $refusing -o "$room/$program"
            counts "$program.c at $size bits$1" $emulator "$room/$program" "$here/docs/vectors.txt"
            grep '^refused: ' "$room/said"
        done
    done
}

# functions_of SIZE: prints the functions of the headers at one size, without this size. Functions with a family's name are
# inline functions of the headers.
functions_of() {
    grep -ho "constriction_[a-z_]*_$1(" "$here"/include/*.h | sed "s/constriction_//; s/_$1(//" | sort
}

# shows_functions SHARED: returns whether the shared object exports exactly the headers' functions, at both sizes.
shows_functions() {
    local of_32 of_16
    of_32=$(functions_of u32) of_16=$(functions_of u16)
    [ -n "$of_32" ] && [ "$of_32" = "$of_16" ] || { echo "other functions at the two sizes"; return 1; }
    diff <({ echo constriction_version; printf 'constriction_%s_u16\n' $of_32; printf 'constriction_%s_u32\n' $of_32; } | sort) \
        <(nm -D --defined-only "$1" | awk '{ print $3 }' | sort)
}

# only_own_names STATIC SHARED: returns whether the static library's global names begin with constriction_, and the shared
# object has its SONAME.
only_own_names() {
    ! nm -g --defined-only "$1" 2>/dev/null | awk 'NF == 3 { print $3 }' | grep -v '^constriction_' || return 1
    nm -g --defined-only "$1" | grep -q ' constriction_' && readelf -d "$2" | grep -q 'SONAME.*libconstriction\.so\.0'
}

# wants_named_symbols STATIC: returns whether docs/C_AND_PYTHON.md names exactly the static library's undefined symbols.
wants_named_symbols() {
    local named wanted
    named=$(sed -n '/^The static library needs/,/^$/p' "$here/docs/C_AND_PYTHON.md" | grep -o '`[a-z_0-9]*`' | tr -d '`' | sort)
    wanted=$(nm -u "$1" 2>/dev/null | awk '$1 == "U" { print $2 }' | grep -v '^_GLOBAL_OFFSET_TABLE_$' | sort -u)
    [ -n "$named" ] && diff <(echo "$named") <(echo "$wanted")
}

# block PAGE LANGUAGE NUMBER: prints a page's block of code, by its number among the blocks of its language.
block() {
    awk -v begins="\`\`\`$2" -v number="$3" '
        inside && /^```/ { exit }
        inside { print }
        $0 == begins && ++count == number { inside = 1 }' "$1"
}

# compresses PROGRAM FILE: returns whether the file comes back by both coders.
compresses() {
    local coder
    for coder in ans range; do
        $emulator "$1" $coder "$2" "$room/packed" && $emulator "$1" -d "$room/packed" "$room/unpacked" || return 1
        cmp "$2" "$room/unpacked" || return 1
    done
}
