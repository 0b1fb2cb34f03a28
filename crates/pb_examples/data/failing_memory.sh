# The builder under one limit of its memory after another, each two pages above the one before, until a build ends well.
# Each piece of memory takes pages of its own, so each limit refuses the growth that first goes past it. A build that was
# refused memory prints nothing or the failing line alone, and says that memory was refused, by a note and by its result
# line. If it was refused memory before it had read its words, there is no note. The build after it has no limit: it
# prints the lines of one from nothing, and leaves the same files. How much memory that takes is not looked at.
package . a
file src/lib.rs 'print x'
pb_tool build > wanted
mv target whole
ulimit -c 0
{
    read -r artifact
    read -r finish
} < wanted
again=${artifact%false\}}true\}
failed='{"reason":"build-finished","success":false}'
# The note and the result line, and for each the line that takes no memory, where none is left for the other.
noted='note: out of memory'
unnoted='note: there is no memory to describe the fault'
error='error: fault memory OutOfMemory'
unsaid='error: the build failed; there is no memory to show the reason'
within() (
    MALLOC_MMAP_THRESHOLD_=0
    export MALLOC_MMAP_THRESHOLD_
    ulimit -d "$1" && exec pb_tool build
)
# The lines of a file, with a bar after each.
lines() {
    said=
    while read -r line; do
        said="$said$line|"
    done < "$1"
}
limit=100
refused=0
status=1
while [ $status != 0 ] && [ $limit -lt 65536 ]; do
    limit=$((limit + 8))
    within $limit > came 2> told
    status=$?
    if [ $status = 101 ]; then
        refused=$((refused + 1))
        lines told
        case $said in
        "$error|" | "$noted|$error|" | "$noted|$unsaid|" | "$unnoted|$error|" | "$unnoted|$unsaid|") ;;
        *) echo "status 101: $said" ;;
        esac
        lines came
        [ "$said" = '' ] || [ "$said" = "$failed|" ] || echo "printed: $said"
        pb_tool build > came
        lines came
        [ "$said" = "$artifact|$finish|" ] || [ "$said" = "$again|$finish|" ] || echo "then: $said"
        diff -r target/debug/a.target.lib whole/debug/a.target.lib
        rm -r target
    elif [ $status != 0 ] && [ $refused -gt 0 ]; then
        echo "status $status"
    fi
done
cmp came wanted
diff -r target/debug/a.target.lib whole/debug/a.target.lib
[ $refused -lt 50 ] || echo 'refused memory under fifty limits and more, and then none'
