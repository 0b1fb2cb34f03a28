# Target folders in which something else stands than the builder left. Each build makes what one from nothing makes, or says
# what cannot be; and what links lead to stays.
package . a
file src/lib.rs 'print x'
file beside/precious kept
pb_tool build > /dev/null
mv target whole
cp -r beside kept
seen() (
    cd "$1" && ls -R && cat $2
)
lie() {
    echo "$1"
    rm -rf target
    cp -r whole target
    (cd target/debug && eval "$1")
    build | sed -n 's/.*"fresh":\(.*\)}$/fresh: \1/p; /^error/p; /^status/p' | tr '\n' ' '
    [ "$(seen whole/debug '*.record */*')" = "$(seen target/debug '*.record */*' 2>&1)" ] && echo 'the same' || echo 'not the same'
    [ "$(seen beside '*')" = "$(seen kept '*')" ] || echo 'what lies beside has changed'
}
record=a.target.lib.record
lie :
lie 'rm $record; mkdir -p $record/x'
lie 'rm $record; ln -s ../../beside/precious $record'
lie 'mv $record ../record; ln -s ../record $record'
lie 'rm $record; ln -s $record $record'
lie 'rm $record; mkfifo $record'
lie 'head -c 100 ../../whole/debug/$record > $record'
lie 'rm -r a.target.lib $record; ln -s ../../beside a.target.lib'
lie 'rm -r a.target.lib $record; mkfifo a.target.lib'
lie 'rm $record; rm a.target.lib/a.d; ln -s ../../../beside/precious a.target.lib/a.d'
lie 'rm $record; ln -s ../../../beside a.target.lib/x'
lie 'cd ..; rm -r debug; ln -s ../beside/precious debug'
