# What `scripts/install` and `scripts/release` share: a tree with the programs and without a source,
# in which `./lurette` runs at once, also where there is no kit.
#
# The script that calls it says `top`, the folder of the repository.

# What whoever runs the program needs of the scripts.
FOR_USERS='start.sh lurette.help lt_plant.help explain.py call_words.py next_calls.py
    waiting.py progress.py traces.py parts.py draw_trace.py reached.py reached_picture.py
    reach_counts.py shorten.py shortening.py smaller.py failing.py sides.py nodes.py children.py'

# Puts a program into a tree, with its stamp, which has the sum of the text that it was built of.
pack_program() {
    name=$1 tree=$2
    program=$("$top/$name" --which 2>/dev/null) || return
    cp -p "$program" "$tree/program/$name"
    for kind in proved unproved; do
        [ ! -e "$program.$kind" ] || cp "$program.$kind" "$tree/program/$name.$kind"
    done
}

# Makes a tree anew.
pack() {
    tree=$1
    rm -rf "$tree"
    mkdir -p "$tree/program" "$tree/scripts"
    for name in lurette lt_plant; do
        pack_program "$name" "$tree" || return
        cp -p "$top/$name" "$tree/$name"
    done
    for file in $FOR_USERS; do
        cp -p "$top/scripts/$file" "$tree/scripts/"
    done
    cp -Rp "$top/docs" "$top/examples" "$top/editors" "$tree/"
    cp -p "$top/README.md" "$top/CHANGELOG.md" "$top/VERSION" "$tree/"
    "$top/lurette" --version >"$tree/program/version"
}
