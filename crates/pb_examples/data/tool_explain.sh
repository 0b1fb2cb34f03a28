# What the program says of a name is what the page of errors says below it, for each name of the page.
page=../../ERRORS.md
count=0
for name in $(sed -n '/^## .error: refused/,/^## Before/s/^### \([A-Za-z]*\).*/\1/p' $page); do
    wanted=$(sed -n "/^### $name\((.*)\)\{0,1\}\$/,/^##/p" $page | grep -v '^##' | sed '1{/^$/d}')
    told=$(pb_tool explain "$name") || echo "no meaning of $name"
    [ "$wanted" = "$told" ] || echo "another meaning of $name"
    count=$((count + 1))
done
echo "$count names"
pb_tool explain BadKind
# A name that is not there.
for name in BadKnd badkind NoSuchPackge Nothing; do
    pb_tool explain "$name" 2> said
    echo "status $?"
    cat said
done
