# shellcheck shell=sh disable=SC2154
# What ./run, tools/build and the commands that take archives share. `root` is the top of the repository, and `home` the folder of the
# toolchain, if a function speaks of them.

# newer_than FILE: a source that is newer, or anything if there is no such file. A folder is newer too, if a file in it is gone.
newer_than() {
    if [ -f "$1" ]; then find crates.txt crates/*/* -name out -prune -o -newer "$1" -print | head -n 1; else echo "$1"; fi
}

# crates_of CRATE: the crates that it is proved from, itself too.
crates_of() {
    awk -v crate="$1" '
        function show(crate, list, count, i) {
            if (!(crate in needs) || crate in shown) return
            shown[crate]
            print crate
            count = split(needs[crate], list, " ")
            for (i = 1; i <= count; i++) show(list[i])
        }
        {
            sub(/#.*/, "")
            at = index($0, ":")
            name = substr($0, 1, at - 1)
            sub(/ .*/, "", name)
            needs[name] = substr($0, at + 1)
        }
        END { show(crate) }' "$root/crates.txt"
}

# sum_of CRATE: a checksum over all that it is proved from, the toolchain too. What rt keeps in a crate's folder out is left out.
sum_of() {
    folders=$(crates_of "$1" | sed 's,^,crates/,')
    # A crate's name is one word.
    # shellcheck disable=SC2086
    sums=$(cd "$root" && cat crates.txt "$home/KIT-ID" &&
        find ${folders:?} -name out -prune -o \( -name '*.rt' -o -name '*.antt' \) -exec sha256sum {} +) || return 1
    sums=$(printf '%s\n' "$sums" | LC_ALL=C sort) || return 1
    sum=$(printf '%s\n' "$sums" | sha256sum | cut -c 1-16)
    echo "${sum:?}"
}
